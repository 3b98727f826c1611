//! A folder of its own for a test, with some listings, and lines of sh in which `m` is the command.
#![allow(dead_code)]

use std::fs::{self, Permissions};
use std::io::{self, Write};
use std::os::unix::fs::PermissionsExt;
use std::os::unix::process::CommandExt;
use std::path::PathBuf;
use std::process::{Command, Output, Stdio};

pub const GOOD: &str = "012E018001\n012B010001\n028001\n0143\n020001\n012B0000000005\n";
pub const SHORT: &str = "012F010001\n028001\n0143\n020001\n012C0000000002\n";

/// Waits behind each rename, and refuses those whose numbers are in FAILS.
const SLOW: &str = "#include <errno.h>
#include <fcntl.h>
#include <stdio.h>
#include <stdlib.h>
#include <string.h>
#include <unistd.h>
int rename(const char *from, const char *to) {
    static int calls;
    const char *fails = getenv(\"FAILS\");
    calls += 1;
    if (fails != NULL && strchr(fails, '0' + calls) != NULL) { errno = EIO; return -1; }
    int done = renameat(AT_FDCWD, from, AT_FDCWD, to);
    usleep(400000);
    return done;
}
";

pub struct Folder(pub PathBuf);

impl Folder {
    pub fn new(name: &str) -> Folder {
        let path = std::env::temp_dir().join(format!("mortarbee-{name}.{}", std::process::id()));
        let _ = fs::remove_dir_all(&path);
        fs::create_dir_all(&path).expect("a folder");
        let folder = Folder(path);
        folder.write("good.lst", GOOD);
        folder.write("bad.lst", "0143");
        folder.write("big.lst", &"0143\n".repeat(1024));
        folder
    }

    pub fn write(&self, name: &str, text: &str) {
        fs::write(self.0.join(name), text).expect("a file");
    }

    pub fn read(&self, name: &str) -> String {
        fs::read_to_string(self.0.join(name)).unwrap_or_default()
    }

    pub fn has(&self, name: &str) -> bool {
        self.0.join(name).exists()
    }

    /// What runs a line; tests that start it otherwise add to it.
    pub fn shell(&self, shell: &str, line: &str) -> Command {
        let line = format!("m() {{ \"{}\" \"$@\"; }}\n{line}", env!("CARGO_BIN_EXE_mortarbee"));
        let mut command = Command::new(shell);
        command.args(["-c", &line]).current_dir(&self.0);
        command
    }

    pub fn run(&self, line: &str) -> Output {
        self.shell("sh", line).output().expect("sh")
    }

    pub fn status(&self, line: &str) -> Option<i32> {
        self.run(line).status.code()
    }

    pub fn said(&self, line: &str) -> String {
        String::from_utf8_lossy(&self.run(line).stderr).into()
    }

    pub fn wrote(&self, line: &str) -> String {
        String::from_utf8_lossy(&self.run(line).stdout).into()
    }

    /// A line of sh in which `rename` is the one of SLOW, started as it would be typed on a terminal or off one; none without a C compiler
    /// or a terminal to be had.
    pub fn slow(&self, on_terminal: bool, line: &str) -> Option<Command> {
        self.write("slow.c", SLOW);
        self.write("line", &format!("echo $$ >pid; LD_PRELOAD=$PWD/slow.so exec \"{}\" {line}", env!("CARGO_BIN_EXE_mortarbee")));
        let typed = "script -qec true /dev/null >/dev/null 2>&1 </dev/null";
        if self.status("cc -shared -fPIC -o slow.so slow.c 2>/dev/null") != Some(0) || (on_terminal && self.status(typed) != Some(0)) {
            return None;
        }
        let mut command = self.shell("sh", if on_terminal { "exec script -qec 'sh line' /dev/null" } else { "exec sh line" });
        command.env("SHELL", "/bin/sh").env("TERM", "xterm").env_remove("NO_COLOR").stdin(Stdio::null());
        Some(command)
    }

    /// Nothing is left beside the files.
    pub fn is_clean(&self) -> bool {
        fs::read_dir(&self.0).expect("a folder").all(|one| !one.expect("a name").file_name().to_string_lossy().starts_with(".mortarbee"))
    }
}

impl Drop for Folder {
    fn drop(&mut self) {
        let _ = fs::remove_dir_all(&self.0);
    }
}

/// Whether a command is on the PATH.
pub fn has_command(name: &str) -> bool {
    Command::new("sh").args(["-c", &format!("command -v {name} >/dev/null")]).status().is_ok_and(|status| status.success())
}

/// A test that cannot be run here is left out by its name, which is written to the file that MORTARBEE_LEFT_OUT names, too.
pub fn leave_out(test: &str, why: &str) {
    let said = format!("left out: {test}: {why}\n");
    print!("{said}");
    if let Some(file) = std::env::var_os("MORTARBEE_LEFT_OUT") {
        let file = fs::OpenOptions::new().append(true).create(true).open(file);
        file.and_then(|mut file| file.write_all(said.as_bytes())).expect("the list of tests that are left out");
    }
}

pub fn is_root() -> bool {
    Command::new("id").arg("-u").output().is_ok_and(|done| done.stdout == b"0\n")
}

/// Runs a line as one who is not root.
pub fn as_nobody(f: &Folder, line: &str) -> io::Result<Output> {
    let mut command = f.shell("sh", line);
    if is_root() {
        command.uid(65_534).gid(65_534);
    }
    command.output()
}

pub fn set_mode(f: &Folder, name: &str, mode: u32) {
    fs::set_permissions(f.0.join(name), Permissions::from_mode(mode)).expect("rights");
}

/// Whether a test that needs one who is not root has none.
pub fn is_without_nobody(f: &Folder, test: &str) -> bool {
    set_mode(f, "", 0o777);
    let has_one = as_nobody(f, "m version >/dev/null").is_ok_and(|done| done.status.success());
    if !has_one {
        leave_out(test, "root cannot be kept from files, and nobody cannot start the command");
    }
    !has_one
}
