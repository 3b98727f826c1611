//! No answer is ever cut: each way in which a write can fail is status 2, is told, and leaves the old file.
#![cfg(feature = "all")]

mod kit;

use kit::{as_nobody, has_command, is_root, is_without_nobody, leave_out, set_mode, Folder, SHORT};
use std::fs;
use std::os::unix::fs::PermissionsExt;
use std::os::unix::process::ExitStatusExt;
use std::process::Stdio;
use std::time::{Duration, Instant};

const SHRUNK: &str = "012F010001\n028001\n0143\n020001\n012C0000000002\n7F0002000005\n";

#[test]
fn a_write_that_fails_is_two_and_is_told() {
    let f = Folder::new("fails");
    for line in [
        "m text --addresses big.lst >/dev/full",
        "ulimit -f 8; m text --addresses big.lst >cut",
        "trap '' XFSZ; ulimit -f 8; m text --addresses big.lst >cut",
        "m judge good.lst >&-",
        "m judge good.lst 1</dev/null",
        "m bad.lst >/dev/full",
        "m help >/dev/full",
        "m good.lst -o /dev/full",
    ] {
        let done = f.run(line);
        assert_eq!(done.status.code(), Some(2), "{line}");
        assert!(String::from_utf8_lossy(&done.stderr).contains("cannot be written"), "{line}");
    }
    assert_eq!(f.status("m judge <&-"), Some(2));
    assert_eq!(f.status("m judge - <&-"), Some(2));
}

#[test]
fn a_limit_of_a_file_is_none_of_a_pipe() {
    let f = Folder::new("pipe");
    assert_eq!(f.wrote("trap '' XFSZ; ulimit -f 8; m text --addresses big.lst | wc -c").trim(), "25600");
}

#[test]
fn a_file_is_replaced_whole_or_not_at_all() {
    let f = Folder::new("replaced");
    assert_eq!(f.status("m good.lst -o new"), Some(0));
    assert_eq!(f.read("new"), SHRUNK);
    assert_eq!(f.status("m bad.lst -o new"), Some(1));
    assert_eq!(f.status("ulimit -f 8; m text --addresses big.lst -o new"), Some(2));
    assert!(f.said("ulimit -f 8; m text --addresses big.lst -o new").contains("new cannot be written; it is as it was"));
    assert_eq!(f.status("m good.lst -o no/such"), Some(2));
    assert_eq!(f.read("new"), SHRUNK);
    assert_eq!(f.status("ln -s new link; m judge good.lst -o link"), Some(0));
    assert_eq!((f.read("new").as_str(), fs::read_link(f.0.join("link")).is_ok()), ("good 6 9\n", true));
    assert_eq!(f.status("ln -s none gone; m judge good.lst -o gone"), Some(2));
    assert_eq!(f.status("chmod 640 new; m judge good.lst -o new"), Some(0));
    assert_eq!(fs::metadata(f.0.join("new")).expect("a file").permissions().mode() & 0o777, 0o640);
    assert!(f.is_clean());
}

#[test]
fn a_file_becomes_its_own_answer() {
    let f = Folder::new("own");
    assert_eq!(f.status("m good.lst -o good.lst"), Some(0));
    assert_eq!(f.read("good.lst"), SHRUNK);
    assert_eq!(f.status("m salvage bad.lst -o bad.lst"), Some(2));
    for line in ["m salvage bad.lst -o ./bad.lst", "m salvage <bad.lst -o bad.lst", "m salvage - -o $PWD/bad.lst <bad.lst"] {
        assert!(f.said(line).contains("--force"), "{line}");
    }
    assert!(f.said("m salvage --report bad.lst <bad.lst >/dev/null").contains("bad.lst is the text"));
    assert_eq!(f.status("m salvage --report /dev/null -o /dev/null </dev/null"), Some(0));
    assert_eq!(f.read("bad.lst"), "0143");
    assert_eq!(f.status("m salvage --force bad.lst -o bad.lst"), Some(0));
    assert_eq!(f.read("bad.lst"), "0430313433\n");
}

#[test]
fn a_closed_or_full_standard_error_changes_nothing() {
    let f = Folder::new("error");
    for end in ["2>&-", "2>/dev/full", "2</dev/null"] {
        let done = f.run(&format!("m bad.lst {end}"));
        assert_eq!((done.status.code(), done.stdout.as_slice()), (Some(1), &b"7E0100000000000000\n"[..]), "{end}");
        let done = f.run(&format!("m judge good.lst -o new {end}"));
        assert_eq!((done.status.code(), f.read("new").as_str()), (Some(0), "good 6 9\n"), "{end}");
        assert_eq!(f.status(&format!("m nothing.lst {end}")), Some(2), "{end}");
    }
}

#[test]
fn a_reader_that_stops_is_quiet() {
    let f = Folder::new("head");
    let many = "for i in 1 2 3 4 5 6 7 8 9 10 11 12 13 14; do cat big.lst; echo ==; done >many";
    let done = f.run(&format!("{many}; {{ m batch many; echo $? >ended; }} | head -n 1"));
    assert_eq!((done.stdout.as_slice(), done.stderr.as_slice(), f.read("ended").as_str()), (&b"0143\n"[..], &b""[..], "0\n"));
}

#[test]
fn streams_are_written_as_they_stand() {
    let f = Folder::new("streams");
    let good = "good 6 9\n";
    for line in
        ["m judge good.lst -o /dev/fd/1", "m judge good.lst -o /dev/stdout", "m judge good.lst -o /dev/fd/3 3>&1", "m judge -o - good.lst"]
    {
        assert_eq!(f.wrote(line), good, "{line}");
    }
    assert_eq!(f.said("m judge good.lst -o /dev/stderr"), good);
    assert_eq!(f.wrote("mkfifo pipe; cat pipe & m judge good.lst -o pipe; wait"), good);
    assert_eq!(f.wrote("cat good.lst >pipe & m judge pipe; wait"), good);
    assert_eq!(f.wrote("m judge good.lst -o /dev/null"), "");
    assert_eq!(f.wrote("echo first >both; m judge good.lst -o /dev/fd/3 3>>both; cat both"), format!("first\n{good}"));
    assert!(f.is_clean());
}

#[test]
fn process_substitution_is_read_and_written() {
    if !has_command("bash") {
        return leave_out("process_substitution_is_read_and_written", "there is no bash");
    }
    let f = Folder::new("substitution");
    let wrote = |line: &str| String::from_utf8_lossy(&f.shell("bash", line).output().expect("bash").stdout).to_string();
    assert_eq!(wrote("m judge <(cat good.lst)"), "good 6 9\n");
    assert_eq!(wrote("m judge good.lst -o >(cat); wait $!"), "good 6 9\n");
    assert_eq!(wrote("m differences <(cat good.lst) <(cat good.lst) | wc -l").trim(), "6");
}

#[test]
fn parts_are_all_or_none() {
    let f = Folder::new("parts");
    let done = f.run("m optimize --listing new.lst --image new.bin --stems new.txt good.lst");
    assert_eq!((done.status.code(), done.stdout.as_slice()), (Some(0), &b"7F0002000005\n"[..]));
    assert_eq!((f.read("new.lst").as_str(), f.read("new.txt").as_str()), (SHORT, "0000\n0002\n0003\n0004\n0005\n"));
    assert_eq!(fs::read(f.0.join("new.bin")).expect("an image"), [0x90, 1, 0, 1, 0xFD]);
    assert_eq!(f.status("m optimize --listing new.lst --image new.bin bad.lst"), Some(1));
    for image in ["no/such", "new.lst", "./new.lst", "/dev/null", "-", "."] {
        assert_eq!(f.status(&format!("m optimize --listing new.lst --image {image} big.lst")), Some(2), "{image}");
    }
    assert_eq!(f.status("m optimize --listing new.lst --image new.bin good.lst"), Some(0));
    assert_eq!(f.status("ulimit -f 1; m optimize --listing new.lst --image new.bin big.lst"), Some(2));
    assert_eq!((f.read("new.lst").as_str(), fs::read(f.0.join("new.bin")).expect("an image").len()), (SHORT, 5));
    assert!(f.is_clean());
}

#[test]
fn a_read_only_folder_is_told() {
    let f = Folder::new("locked");
    if is_without_nobody(&f, "a_read_only_folder_is_told") {
        return;
    }
    fs::create_dir(f.0.join("shut")).expect("a folder");
    f.write("shut/old", "old\n");
    set_mode(&f, "shut/old", 0o666);
    set_mode(&f, "shut", 0o555);
    for line in ["m judge good.lst -o shut/new", "m judge good.lst -o shut/old", "m settings add 7 --store shut/store"] {
        let done = as_nobody(&f, line).expect("sh");
        assert_eq!((done.status.code(), done.stdout.as_slice()), (Some(2), &b""[..]), "{line}");
        assert!(String::from_utf8_lossy(&done.stderr).contains("it is as it was"), "{line}");
    }
    assert_eq!(f.read("shut/old"), "old\n");
    set_mode(&f, "shut", 0o755);
}

/// A run of some seconds: each of 600 jumps is tried again after each of 420 rewrites, and refused late, by the branch behind them.
fn long() -> String {
    format!("020001\n{}012C010002\n050789\n020002\n{}", "012B010001\n".repeat(600), "012B010002\n".repeat(420))
}

#[test]
fn a_signal_ends_a_run_at_once_and_leaves_the_old_file() {
    let f = Folder::new("signal");
    f.write("long.lst", &long());
    f.write("new", "old\n");
    for (name, number) in [("INT", 2), ("TERM", 15), ("HUP", 1)] {
        let mut child = std::process::Command::new(env!("CARGO_BIN_EXE_mortarbee"))
            .args(["long.lst", "-o", "new"])
            .current_dir(&f.0)
            .stdout(Stdio::null())
            .stderr(Stdio::piped())
            .spawn()
            .expect("the command");
        std::thread::sleep(Duration::from_millis(200));
        if child.try_wait().expect("a child").is_some() {
            return leave_out("a_signal_ends_a_run_at_once_and_leaves_the_old_file", "the run had ended before");
        }
        let began = Instant::now();
        assert_eq!(f.status(&format!("kill -s {name} {}", child.id())), Some(0));
        let done = child.wait_with_output().expect("its end");
        assert_eq!((done.status.signal(), done.stderr.as_slice()), (Some(number), &b""[..]));
        assert!(began.elapsed() < Duration::from_secs(1), "it did not end at once");
        assert_eq!(f.read("new"), "old\n");
    }
    assert!(f.is_clean());
}

/// A small file system: 160 KB, as a mount that goes with its folder. Root makes it, or the user's own name space.
#[test]
fn eight_at_once_on_a_full_file_system_are_whole_or_told() {
    let name = "eight_at_once_on_a_full_file_system_are_whole_or_told";
    let f = Folder::new("small");
    fs::create_dir(f.0.join("small")).expect("a folder");
    let mount = "mount -t tmpfs -o size=160k none small";
    let unshare = if is_root() { "unshare -m" } else { "unshare -rm" };
    if f.status(&format!("{unshare} sh -c '{mount}' 2>/dev/null")) != Some(0) {
        return leave_out(name, "no file system can be mounted");
    }
    let script = format!(
        "{mount} || exit 9\n\
         m() {{ \"{0}\" \"$@\"; }}\n\
         m text --addresses big.lst >whole\n\
         for round in 1 2 3 4 5; do\n\
         for i in 1 2 3 4 5 6 7 8; do (m text --addresses big.lst -o small/$i 2>>said; echo $? $i >>ended) & done; wait\n\
         for i in 1 2 3 4 5 6 7 8; do (m text --addresses big.lst >small/o$i 2>>said; echo $? o$i >>ended) & done; wait\n\
         while read -r status file; do [ \"$status\" = 2 ] || cmp whole small/$file || echo cut $file >>cut; done <ended\n\
         for i in 1 2 3 4 5 6 7 8; do [ ! -e small/$i ] || cmp -s whole small/$i || echo cut $i >>cut; done\n\
         ls -A small | grep '^[.]mortarbee' >>left\n\
         cat ended >>all; rm -f ended small/*; done; exit 0",
        env!("CARGO_BIN_EXE_mortarbee")
    );
    f.write("script", &script);
    let done = f.run(&format!("{unshare} sh script"));
    assert_eq!(done.status.code(), Some(0), "{}", String::from_utf8_lossy(&done.stderr));
    assert_eq!((f.read("cut").as_str(), f.read("left").as_str()), ("", ""));
    let all = f.read("all");
    assert_eq!(all.lines().count(), 80);
    assert!(all.contains("2 "), "the file system was never full");
    let failed = all.lines().filter(|line| line.starts_with('2')).count();
    assert_eq!(f.read("said").lines().count(), failed, "each failure is told");
}

#[test]
fn eight_at_once_get_eight_editions() {
    let f = Folder::new("editions");
    let wrote = f.wrote("for i in 1 2 3 4 5 6 7 8; do m settings add 7 --store s & done | sort; wait");
    assert_eq!(wrote, "1\n2\n3\n4\n5\n6\n7\n8\n");
    assert!(f.has("s") && f.is_clean());
}

#[test]
fn a_report_and_its_listing_are_both_or_none() {
    let f = Folder::new("report");
    assert_eq!(f.status("m salvage bad.lst --report told -o new.lst"), Some(0));
    assert_eq!((f.read("told").as_str(), f.read("new.lst").as_str()), ("7B010000\n", "0430313433\n"));
    for output in ["no/such", ".", "/dev/full"] {
        assert_eq!(f.status(&format!("m salvage good.lst --report told -o {output}")), Some(2), "{output}");
    }
    assert_eq!(f.status("m salvage good.lst --report no/such -o new.lst"), Some(2));
    assert_eq!(f.read("new.lst"), "0430313433\n");
    assert!(f.is_clean());
}

/// What was done before an answer could not be written is told.
#[test]
fn what_was_done_already_is_told() {
    let f = Folder::new("done");
    assert!(f.said("m settings add 7 --store s >/dev/full").contains("s has the new edition, 1\n"));
    assert_eq!(f.wrote("m settings add 7 --store s"), "2\n");
    assert!(f.said("m optimize --listing new.lst good.lst >/dev/full").contains("the files are written\n"));
    assert_eq!(f.read("new.lst"), SHORT);
}

#[test]
fn there_is_no_cap() {
    let f = Folder::new("cap");
    let shown = |name: &str| f.wrote(&format!("m salvage {name} 2>/dev/null | tail -n 1"));
    f.write("many", &"0143\n".repeat(200_000));
    f.write("one", &"0".repeat(3_000_000));
    assert_eq!(shown("many"), "0143\n");
    assert!(f.said("m salvage many").contains("kept 1024, replaced 0, left off 198976"));
    assert!(f.said("m salvage one").contains("2, the frame has 1500000 bytes; 120 are allowed"));
    assert_eq!(f.wrote("m read-back 4000000 one"), "7E1000000000000000\n");
    assert_eq!(f.wrote("m read-back 0 one"), "7E0200000000000000\n");
    assert_eq!(f.wrote("m batch many | tail -n 2"), "7E0204000000000000\n==\n");
}

/// Document 01 accepts a listing of no statements; one that is empty by accident is told.
#[test]
fn an_empty_listing_is_accepted_with_a_warning() {
    let f = Folder::new("empty");
    f.write("none", "");
    for line in ["m none", "m <none", "m judge none", "m image none -o new"] {
        let done = f.run(line);
        assert_eq!(done.status.code(), Some(0), "{line}");
        assert!(String::from_utf8_lossy(&done.stderr).contains(": warning: nothing is in it"), "{line}");
    }
    for line in ["m </dev/null", "m judge </dev/null", ": | m"] {
        let done = f.run(line);
        assert_eq!((done.status.code(), done.stderr.as_slice()), (Some(0), &b""[..]), "{line}");
    }
}
