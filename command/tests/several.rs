//! Several files of one call: all are new or all are old, on a terminal too, and no two of them are one.
#![cfg(feature = "all")]

mod kit;

use kit::{as_nobody, is_without_nobody, leave_out, set_mode, Folder, SHORT};
use std::fs;
use std::os::unix::process::ExitStatusExt;
use std::process::Stdio;
use std::time::{Duration, Instant};

/// The second of two files cannot take its name: the first becomes what it was, and where it cannot, that is told.
#[test]
fn a_file_is_brought_back_or_told() {
    let f = Folder::new("back");
    let Some(mut command) = f.slow(false, "optimize --listing new.lst --image new.bin good.lst") else {
        return leave_out("a_file_is_brought_back_or_told", "there is no cc");
    };
    f.write("new.bin", "old\n");
    for (old, fails, told) in [("old\n", "2", ""), ("", "2", ""), ("old\n", "23", "new.lst is the new one, and cannot be brought back; ")] {
        f.write("new.lst", old);
        f.run("[ -s new.lst ] || rm new.lst");
        let done = command.env("FAILS", fails).output().expect("sh");
        let said = format!("mortarbee: {told}new.bin cannot be replaced; it is as it was: input/output error\n");
        assert_eq!((done.status.code(), String::from_utf8_lossy(&done.stderr).as_ref()), (Some(2), said.as_str()));
        assert_eq!((f.read("new.bin").as_str(), f.has("new.lst")), ("old\n", !old.is_empty()));
        assert_eq!(f.read("new.lst"), if told.is_empty() { old } else { SHORT });
        assert!(f.is_clean());
    }
}

/// A file that can be written and not read is replaced alone; one of several it could not be brought back.
#[test]
fn an_old_file_that_cannot_be_read_is_left() {
    let f = Folder::new("unread");
    if is_without_nobody(&f, "an_old_file_that_cannot_be_read_is_left") {
        return;
    }
    f.write("new.lst", "old\n");
    set_mode(&f, "new.lst", 0o222);
    let done = as_nobody(&f, "m optimize --listing new.lst --image new.bin good.lst").expect("sh");
    assert_eq!((done.status.code(), done.stdout.as_slice()), (Some(2), &b""[..]));
    assert!(String::from_utf8_lossy(&done.stderr).contains("new.lst cannot be read, and so not be brought back; all is as it was"));
    assert!(!f.has("new.bin") && f.is_clean());
    set_mode(&f, "new.lst", 0o666);
    assert_eq!(f.read("new.lst"), "old\n");
    set_mode(&f, "new.lst", 0o222);
    assert!(as_nobody(&f, "m optimize --listing new.lst good.lst").is_ok_and(|done| done.status.success()));
    set_mode(&f, "new.lst", 0o666);
    assert_eq!(f.read("new.lst"), SHORT);
}

/// Off a terminal, and on one, where the sign of life has a thread of its own.
#[test]
fn a_signal_between_two_files_leaves_both() {
    for on_terminal in [false, true] {
        let f = Folder::new("between");
        let Some(mut command) = f.slow(on_terminal, "optimize --listing new.lst --image new.bin good.lst") else {
            return leave_out("a_signal_between_two_files_leaves_both", "there is no cc or no script");
        };
        f.write("new.lst", "old\n");
        f.write("new.bin", "old\n");
        let mut child = command.stdout(Stdio::null()).stderr(Stdio::null()).spawn().expect("sh");
        let began = Instant::now();
        while f.read("new.lst") != SHORT && began.elapsed() < Duration::from_secs(20) {
            std::thread::sleep(Duration::from_millis(10));
        }
        assert_eq!(f.status("kill -s TERM $(cat pid)"), Some(0));
        let status = child.wait().expect("its end");
        assert!(status.signal() == Some(15) || status.code() == Some(143), "{status}");
        assert_eq!((f.read("new.lst").as_str(), fs::read(f.0.join("new.bin")).expect("an image").len()), (SHORT, 5), "{on_terminal}");
        assert!(f.is_clean());
    }
}

/// What goes to two names of one file would be lost, whether the file is there or not.
#[test]
fn a_new_file_has_one_name() {
    let f = Folder::new("names");
    fs::create_dir(f.0.join("folder")).expect("a folder");
    for (line, made) in [
        ("m optimize --listing r --image ./r good.lst", "r"),
        ("m optimize --image folder/../r --stems $PWD/r good.lst", "r"),
        ("ln -s folder way; m optimize --listing way/r --stems folder/r good.lst", "folder/r"),
        ("m optimize --listing r -o r good.lst", "r"),
        ("m optimize --stems folder/r -o folder/./r good.lst", "folder/r"),
        ("m salvage --report r -o ./r good.lst", "r"),
        ("m salvage --report r -o r good.lst", "r"),
    ] {
        assert_eq!((f.status(line), f.has(made)), (Some(2), false), "{line}");
    }
    for line in ["m optimize --listing r good.lst >r", "m salvage --report r good.lst >r", "m optimize --image r good.lst -o - >r"] {
        assert_eq!((f.status(line), f.read("r").as_str()), (Some(2), ""), "{line}");
    }
    assert_eq!(f.status("m optimize --listing r --image folder/r -o r.out good.lst"), Some(0));
    assert_eq!((f.read("r").as_str(), f.read("r.out").as_str()), (SHORT, "7F0002000005\n"));
    assert!(f.is_clean());
}

/// 24,575 frame bytes, of which a jump becomes two bytes longer.
#[test]
fn a_new_listing_that_is_too_long_is_told() {
    let f = Folder::new("long");
    let comment = |bytes: usize| format!("04{}\n", "20".repeat(bytes - 1));
    f.write("full.lst", &format!("0300010000000000\n012C010001\n{}{}", comment(120).repeat(204), comment(82)));
    let warning = "new.lst: warning: the new listing passes the total limit: handed in again, it is refused 2\n";
    let done = f.run("m optimize --comments --listing new.lst full.lst");
    assert_eq!((done.status.code(), String::from_utf8_lossy(&done.stderr).contains(warning)), (Some(0), true));
    assert!(f.wrote("m judge new.lst").starts_with("7E02"));
    for line in ["m optimize --listing new.lst full.lst", "m optimize --comments --listing new.lst good.lst"] {
        assert_eq!((f.said(line).contains(warning), f.status("m judge new.lst")), (false, Some(0)), "{line}");
    }
}
