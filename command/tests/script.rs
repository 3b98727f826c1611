//! The script at the top, in a clone with a `rt` and a `cargo` of its own: it builds once, says how far it is, hands over, installs, and
//! leaves nothing running.
#![cfg(feature = "all")]

mod kit;

use kit::{has_command, leave_out, Folder};
use std::fs;
use std::os::unix::fs::{symlink, PermissionsExt};
use std::path::Path;
use std::time::Duration;

/// An archive is made of the crates that those on its line depend on, too.
const ARCHIVES: &str = "# NAME: ..\nlaws:\nrules: laws\nother: laws\nborder_core: rules\nborder_core_c staticlib: border_core\nborder staticlib: rules border_core\n";

/// A rt that takes its time for each crate, and a cargo that hands out the command that is tested. Each writes down that it was started.
const RT: &str = "echo rt $* >>../../started; made=${PWD##*/}
for crate in laws rules border_core $made; do sleep 0.3; echo \"crate $crate: modules loaded=1 checked=1\"; echo logic=proved functions=1; done
mkdir -p out; : >out/lib$made.a";
const CARGO: &str = "echo cargo $* >>../started; while [ \"$1\" != --target-dir ]; do shift; done
for folder in debug release; do mkdir -p \"$2/$folder\"; cp ../commands/mortarbee \"$2/$folder/mortarbee\"; done";

fn program(f: &Folder, name: &str, text: &str) {
    f.write(name, &format!("#!/bin/sh\n{text}\n"));
    fs::set_permissions(f.0.join(name), fs::Permissions::from_mode(0o755)).expect("rights");
}

/// A clone: the script, its parts and some sources; the folder `own` comes first on the PATH.
fn clone(name: &str) -> Folder {
    let f = Folder::new(name);
    let top = Path::new(env!("CARGO_MANIFEST_DIR")).join("..");
    for folder in [
        "command/src",
        "bindings/rust/src",
        "docs/words",
        "crates/laws/src",
        "crates/border",
        "crates/border_core_c",
        "own",
        "commands",
        "examples/tray",
    ] {
        fs::create_dir_all(f.0.join(folder)).expect("a folder");
    }
    for file in [
        "mortarbee",
        "bindings/archive.sh",
        "command/build.sh",
        "command/install.sh",
        "command/test.sh",
        "NOTICE",
        "docs/FORMAT.md",
        "docs/RULES.md",
        "examples/tray/tray.lst",
    ] {
        fs::copy(top.join(file), f.0.join(file)).expect("a file");
    }
    f.write("crates.txt", ARCHIVES);
    fs::copy(env!("CARGO_BIN_EXE_mortarbee"), f.0.join("commands/mortarbee")).expect("the command");
    program(&f, "own/rt", RT);
    program(&f, "own/cargo", CARGO);
    f
}

fn with_own(line: &str) -> String {
    format!("PATH=$PWD/own:$PATH; export PATH; {line}")
}

/// The tests of the script need what it needs.
fn is_left_out(test: &str) -> bool {
    match ["flock", "setsid", "awk"].iter().find(|name| !has_command(name)) {
        Some(name) => leave_out(test, &format!("there is no {name}")),
        None => return false,
    }
    true
}

#[test]
fn the_first_command_says_how_far_it_is() {
    if is_left_out("the_first_command_says_how_far_it_is") {
        return;
    }
    let f = clone("first");
    let done = f.run(&with_own("command/build.sh core && ./mortarbee judge good.lst"));
    let said = String::from_utf8_lossy(&done.stderr);
    assert_eq!(done.stdout, b"good 6 9\n", "{said}");
    for line in ["the main job is proved and built: 4 crates", "crate 1 of 4: laws (", "crate 2 of 4: rules (", "proved in "] {
        assert!(said.contains(&format!("mortarbee: {line}")), "{line} is not in {said}");
    }
    assert_eq!(f.read("started").lines().filter(|line| line.starts_with("rt ")).count(), 1);
    let again = f.run(&with_own("./mortarbee judge good.lst"));
    assert_eq!((again.stdout.as_slice(), again.stderr.as_slice()), (&b"good 6 9\n"[..], &b""[..]));
}

#[test]
fn four_at_once_start_one_build() {
    if is_left_out("four_at_once_start_one_build") {
        return;
    }
    let f = clone("once");
    f.run(&with_own("for i in 1 2 3 4; do command/build.sh all 2>said$i & done; wait"));
    assert_eq!(f.read("started").lines().filter(|line| line.starts_with("rt lib")).count(), 1);
    assert_eq!(f.read("started").lines().filter(|line| line.starts_with("cargo")).count(), 1);
    let waited = (1..5).filter(|i| f.read(&format!("said{i}")).contains("another build is under way")).count();
    assert_eq!((waited, f.has("target/command/all/mortarbee")), (3, true));
}

#[test]
fn newer_sources_are_told_and_built_where_asked() {
    if is_left_out("newer_sources_are_told_and_built_where_asked") {
        return;
    }
    let f = clone("newer");
    f.run(&with_own("command/build.sh all"));
    std::thread::sleep(Duration::from_millis(20));
    f.write("crates/laws/src/lib.rt", "// more\n");
    let done = f.run("./mortarbee judge good.lst");
    assert_eq!(done.stdout, b"good 6 9\n");
    assert!(String::from_utf8_lossy(&done.stderr).contains("warning: the command is older than crates/laws/src/lib.rt: ./mortarbee build"));
    assert_eq!(f.status(&with_own("./mortarbee build")), Some(0));
    assert_eq!(f.said("./mortarbee judge good.lst"), "");
}

/// What is installed or packed is made of the sources as they are.
#[test]
fn nothing_stale_is_installed() {
    if is_left_out("nothing_stale_is_installed") {
        return;
    }
    let f = clone("stale");
    f.run(&with_own("command/build.sh all"));
    f.write("commands/mortarbee", "#!/bin/sh\necho new\n");
    for line in ["install there", "tarball there && tar xzf there/*.tar.gz -C there --strip-components 1"] {
        assert_eq!(f.status(&with_own(&format!("rm -rf there; ./mortarbee {line}"))), Some(0), "{line}");
        assert_eq!(f.wrote("there/bin/mortarbee version"), "new\n", "{line}");
    }
    assert_eq!(f.read("started").lines().filter(|line| line.starts_with("rt lib")).count(), 1);
}

#[test]
fn tests_that_are_left_out_are_none_that_passed() {
    let f = clone("left-out");
    fs::create_dir_all(f.0.join("target/staticlib")).expect("a folder");
    f.write("target/staticlib/libborder.a", "");
    program(
        &f,
        "own/cargo",
        "echo 'left out: a test: why' >>\"$MORTARBEE_LEFT_OUT\"; echo 'test result: ok. 3 passed; 0 failed; 0 ignored'",
    );
    let line = "command/test.sh target/staticlib";
    assert!(f.wrote(&with_own(line)).ends_with("\nleft out: a test: why\n4 passed, 0 failed\n"), "{}", f.wrote(&with_own(line)));
}

#[test]
fn a_build_that_cannot_be_is_told() {
    if is_left_out("a_build_that_cannot_be_is_told") {
        return;
    }
    let f = clone("cannot");
    program(&f, "own/rt", "echo 'rt: FAILED: laws'; exit 1");
    let done = f.run(&with_own("command/build.sh core"));
    let said = String::from_utf8_lossy(&done.stderr);
    assert_eq!(done.status.code(), Some(2));
    assert!(said.contains("rt: FAILED: laws\n") && said.contains("the proof failed; "), "{said}");
    program(&f, "own/rt", RT);
    program(&f, "own/cargo", "echo 'error: no linker'; exit 1");
    let done = f.run(&with_own("./mortarbee judge good.lst"));
    let said = String::from_utf8_lossy(&done.stderr);
    assert_eq!(done.status.code(), Some(2));
    assert!(said.contains("error: no linker\n") && said.contains("the command could not be built; "), "{said}");
}

#[test]
fn a_signal_ends_a_build_and_all_it_started() {
    if is_left_out("a_signal_ends_a_build_and_all_it_started") {
        return;
    }
    let f = clone("ended");
    program(&f, "own/rt", "echo $$ >../../pid; exec sleep 60");
    let line = "command/build.sh core 2>said & build=$!
        i=0; until [ -s pid ] || [ $i = 100 ]; do sleep 0.1; i=$((i + 1)); done
        kill -s TERM $build; wait $build; echo $?
        i=0; while kill -0 $(cat pid) 2>/dev/null && [ $i -lt 100 ]; do sleep 0.1; i=$((i + 1)); done
        kill -0 $(cat pid) 2>/dev/null || echo gone";
    assert_eq!(f.wrote(&with_own(line)), "143\ngone\n");
}

#[test]
fn links_and_spaces_are_no_matter() {
    if is_left_out("links_and_spaces_are_no_matter") {
        return;
    }
    let f = clone("a path");
    f.run(&with_own("command/build.sh all"));
    symlink(f.0.join("mortarbee"), f.0.join("linked")).expect("a link");
    assert_eq!(f.wrote("./linked judge good.lst"), "good 6 9\n");
    assert_eq!(f.wrote("cd own && sh ../mortarbee judge ../good.lst"), "good 6 9\n");
    assert_eq!(f.wrote("sh mortarbee judge good.lst"), "good 6 9\n");
}

#[test]
fn what_is_installed_needs_nothing_else() {
    if is_left_out("what_is_installed_needs_nothing_else") {
        return;
    }
    let f = clone("installed");
    assert_eq!(f.status(&with_own("./mortarbee install there")), Some(0));
    f.run("mv crates gone; mv command gone; mv docs gone");
    assert_eq!(f.wrote("there/bin/mortarbee judge good.lst"), "good 6 9\n");
    assert!(f.wrote("there/bin/mortarbee explain 10").starts_with("10: "));
    for file in ["man/man1/mortarbee.1", "bash-completion/completions/mortarbee", "zsh/site-functions/_mortarbee"] {
        assert!(!f.read(&format!("there/share/{file}")).is_empty(), "{file}");
    }
    for file in ["NOTICE", "docs/FORMAT.md", "docs/RULES.md", "examples/tray/tray.lst"] {
        let top = Path::new(env!("CARGO_MANIFEST_DIR")).join("..");
        assert_eq!(f.read(&format!("there/share/doc/mortarbee/{file}")), fs::read_to_string(top.join(file)).expect("a file"), "{file}");
    }
    let f = clone("packed");
    f.run(&with_own("./mortarbee tarball packed"));
    assert_eq!(f.status("cd packed && sha256sum -c *.sha256 && tar xzf *.tar.gz && cd */ && sha256sum -c SHA256SUMS"), Some(0));
    assert_eq!(f.status(&with_own("./mortarbee install there && ./mortarbee uninstall there")), Some(0));
    assert_eq!(f.wrote("find there -type f"), "");
}
