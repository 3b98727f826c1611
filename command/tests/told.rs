//! What is made of the table of words: help, a manual page, completions; and the version.

mod kit;

use kit::{has_command, is_root, leave_out, Folder};
use std::fs;
use std::os::unix::fs::PermissionsExt;
use std::os::unix::process::CommandExt;

const WORDS: &str = "optimize judge check image text read where read-back salvage stems differences steps targets map why page \
                     audit settings batch explain help version";

#[test]
fn every_word_is_in_help_manual_and_completions() {
    let f = Folder::new("told");
    let (all, man, bash, zsh) = (f.wrote("m help"), f.wrote("m help --man"), f.wrote("m help --bash"), f.wrote("m help --zsh"));
    let told = all.lines().skip_while(|line| !line.is_empty()).skip(1).take_while(|line| !line.is_empty());
    let told: Vec<&str> = told.filter_map(|line| line.split_whitespace().next()).collect();
    assert_eq!(told.join(" "), WORDS);
    for word in WORDS.split(' ') {
        assert!(all.contains(&format!("\n  {word}")), "{word}");
        assert!(man.contains(&format!(".SS {}\n", word.replace('-', "\\-"))), "{word}");
        assert!(bash.contains(&format!("\n        {word}) options=")) && zsh.contains(&format!("\n    {word}) _arguments")), "{word}");
        let help = f.wrote(&format!("m help {word}"));
        assert!(help.starts_with(&format!("mortarbee {word}")) && !help.contains("{options}"), "{word}");
        assert_eq!(f.wrote(&format!("m {word} --help")), help);
    }
}

/// The script's words are in help, and the command says whose they are.
#[test]
fn the_words_of_the_script_are_told() {
    let f = Folder::new("of-script");
    let all = f.wrote("m help");
    for word in ["build", "install PREFIX", "uninstall PREFIX", "tarball FOLDER"] {
        assert!(all.contains(&format!("\n  {word}  ")), "{word}");
        let name = word.split(' ').next().unwrap_or("");
        for line in [format!("m help {name}"), format!("m {name}")] {
            assert_eq!(f.status(&line), Some(2));
            let said = format!("mortarbee: {name} is a word of the script at the top of the repository: ./mortarbee {word} ");
            assert!(f.said(&line).starts_with(&said), "{}", f.said(&line));
        }
    }
}

#[test]
fn bash_completes_words_and_options() {
    if !has_command("bash") {
        return leave_out("bash_completes_words_and_options", "there is no bash");
    }
    let f = Folder::new("bash");
    f.run("m help --bash >completions");
    f.write("one - two.lst", "0143\n");
    let complete = |words: &str, at: usize| {
        let line = format!("source completions; COMP_WORDS=({words}); COMP_CWORD={at}; _mortarbee; printf '%s\\n' \"${{COMPREPLY[@]}}\"");
        String::from_utf8_lossy(&f.shell("bash", &line).output().expect("bash").stdout).trim().to_string()
    };
    assert_eq!(complete("mortarbee opt", 1), "optimize");
    assert_eq!(complete("mortarbee optimize --li", 2), "--listing");
    assert_eq!(complete("mortarbee judge goo", 2), "good.lst");
    assert_eq!(complete("mortarbee judge one", 2), "one - two.lst");
    assert_eq!(complete("mortarbee help sal", 2), "salvage");
    assert_eq!(complete("mortarbee help goo", 2), "");
    assert_eq!(complete("mortarbee help --m", 2), "--man");
    assert_eq!(complete("mortarbee settings a", 2), "add");
}

#[test]
fn zsh_takes_its_completions() {
    if !has_command("zsh") {
        return leave_out("zsh_takes_its_completions", "there is no zsh");
    }
    let f = Folder::new("zsh");
    assert_eq!(f.status("m help --zsh >_mortarbee; zsh -n _mortarbee"), Some(0));
}

#[test]
fn the_version_has_a_number_and_a_checksum() {
    let f = Folder::new("version");
    let told = f.wrote("m version");
    let program = told.lines().last().and_then(|line| line.strip_prefix("program ")).unwrap_or("");
    assert!(told.starts_with(&format!("version {}\ncommit ", env!("CARGO_PKG_VERSION"))), "{told}");
    assert_eq!((program.len(), f.wrote("m --version")), (64, told.clone()));
    if has_command("sha256sum") {
        assert_eq!(f.wrote(&format!("sha256sum <'{}'", env!("CARGO_BIN_EXE_mortarbee"))).split(' ').next(), Some(program));
    }
}

/// Colours and signs of life are for a terminal alone, and not for one that is asked to be plain.
#[test]
fn colours_are_for_a_terminal() {
    if !cfg!(feature = "all") || !has_command("script") {
        return leave_out("colours_are_for_a_terminal", "there is no command script");
    }
    let f = Folder::new("colours");
    f.write("two.lst", "0144\n0143\n");
    f.write("nop.lst", "0143\n");
    let typed = |front: &str| {
        let line =
            format!("{front} script -qec \"'{}' differences two.lst nop.lst\" /dev/null </dev/null", env!("CARGO_BIN_EXE_mortarbee"));
        f.wrote(&line).contains('\x1b')
    };
    assert!(typed("TERM=xterm"));
    assert!(!typed("TERM=dumb") && !typed("NO_COLOR=1 TERM=xterm"));
    assert!(!f.wrote("TERM=xterm m differences two.lst nop.lst").contains('\x1b'));
}

/// A run of some seconds says on a terminal that it is at work, on standard error alone.
#[test]
fn long_work_shows_life_on_a_terminal() {
    if !cfg!(feature = "core") || !has_command("script") {
        return leave_out("long_work_shows_life_on_a_terminal", "there is no command script");
    }
    let f = Folder::new("life");
    f.write("long.lst", &format!("020001\n{}012C010002\n050789\n020002\n{}", "012B010001\n".repeat(600), "012B010002\n".repeat(420)));
    let line = format!("TERM=xterm script -qec \"'{}' long.lst -o long.out\" typed >/dev/null </dev/null", env!("CARGO_BIN_EXE_mortarbee"));
    let began = std::time::Instant::now();
    f.run(&line);
    assert!(f.read("long.out").ends_with("\n7F01A4000AD1\n"));
    if began.elapsed() < std::time::Duration::from_secs(3) {
        return leave_out("long_work_shows_life_on_a_terminal", "the run was too short");
    }
    assert!(f.read("typed").contains("at work on 1024 lines, 2 s"), "{}", f.read("typed"));
}

/// What the system says is told in words, without its number.
#[test]
fn a_store_that_cannot_be_read_is_told() {
    let f = Folder::new("unread");
    f.write("kept", "");
    for (name, mode) in [("kept", 0o000), ("", 0o755)] {
        fs::set_permissions(f.0.join(name), fs::Permissions::from_mode(mode)).expect("rights");
    }
    let run = |line: &str| {
        let mut command = f.shell("sh", line);
        if is_root() {
            command.uid(65_534).gid(65_534);
        }
        command.output()
    };
    if !cfg!(feature = "all") || !run("m version >/dev/null").is_ok_and(|done| done.status.success()) {
        return leave_out("a_store_that_cannot_be_read_is_told", "root can read all, and nobody cannot start the command");
    }
    let done = run("m settings show --store kept").expect("sh");
    assert_eq!(
        (done.status.code(), String::from_utf8_lossy(&done.stderr).as_ref()),
        (Some(2), "mortarbee: kept cannot be read: permission denied\n")
    );
}
