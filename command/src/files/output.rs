//! Standard output and other streams, and where a name leads.

use super::replace::{replace, resolve};
use super::trouble;
use crate::answer::Stop;
use border::streams::was_open;
use std::ffi::OsStr;
use std::fs::{self, File, OpenOptions};
use std::io::{self, ErrorKind, Write};
use std::os::fd::AsFd;
use std::os::unix::fs::FileTypeExt;
use std::path::{Path, PathBuf};
use std::time::Duration;

pub enum Put {
    Whole,
    /// The reader closed the pipe: it wants no more, and nothing is said.
    NobodyReads,
}

/// All bytes to an open file. Not through `Stdout`, which takes a bad descriptor for a good one. A pipe that must not block is waited for.
fn put_all(to: &mut File, mut bytes: &[u8], what: &str) -> Result<Put, Stop> {
    while !bytes.is_empty() {
        match to.write(bytes) {
            Ok(0) => return Err(Stop::Trouble(format!("{what}: nothing more is taken"))),
            Ok(n) => bytes = &bytes[n..],
            Err(why) => match why.kind() {
                ErrorKind::Interrupted => {}
                ErrorKind::WouldBlock => std::thread::sleep(Duration::from_millis(1)),
                ErrorKind::BrokenPipe => return Ok(Put::NobodyReads),
                _ => return Err(trouble(what, why)),
            },
        }
    }
    Ok(Put::Whole)
}

pub fn put_out(bytes: &[u8]) -> Result<Put, Stop> {
    if bytes.is_empty() {
        return Ok(Put::Whole);
    }
    if !was_open(1) {
        return Err(Stop::Trouble("the answer cannot be written: standard output is closed".into()));
    }
    let out = io::stdout().as_fd().try_clone_to_owned().map_err(|why| trouble("the answer cannot be written", why))?;
    put_all(&mut File::from(out), bytes, "the answer cannot be written")
}

fn put_err(bytes: &[u8], what: &str) -> Result<Put, Stop> {
    if !was_open(2) {
        return Err(Stop::Trouble(format!("{what}: standard error is closed")));
    }
    let err = io::stderr().as_fd().try_clone_to_owned().map_err(|why| trouble(what, why))?;
    put_all(&mut File::from(err), bytes, what)
}

/// Where a name leads.
pub enum Target {
    Out,
    Err,
    /// A device, a pipe, a descriptor: written as it stands.
    Stream(PathBuf),
    /// A file, or none yet: replaced whole.
    File(PathBuf),
}

pub fn target_of(file: &OsStr) -> Result<Target, Stop> {
    let name = file.to_string_lossy();
    match name.as_ref() {
        "-" | "/dev/stdout" | "/dev/fd/1" | "/proc/self/fd/1" => return Ok(Target::Out),
        "/dev/stderr" | "/dev/fd/2" | "/proc/self/fd/2" => return Ok(Target::Err),
        _ => {}
    }
    if name.starts_with("/dev/fd/") || name.starts_with("/proc/self/fd/") {
        return Ok(Target::Stream(file.into()));
    }
    let path = resolve(Path::new(file))?;
    match fs::metadata(&path) {
        Ok(found) if found.is_dir() => Err(Stop::Trouble(format!("{name} is a folder"))),
        Ok(found) if !found.is_file() => Ok(Target::Stream(path)),
        Ok(_) if OpenOptions::new().append(true).open(&path).is_err() => Err(Stop::Trouble(format!("{name} is write-protected"))),
        _ => Ok(Target::File(path)),
    }
}

pub fn put_file(file: &OsStr, bytes: &[u8]) -> Result<Put, Stop> {
    let what = format!("{} cannot be written", file.to_string_lossy());
    match target_of(file)? {
        Target::Out => put_out(bytes),
        Target::Err => put_err(bytes, &what),
        Target::Stream(path) => put_stream(&path, bytes, &what),
        Target::File(path) => replace(&path, bytes).map(|()| Put::Whole),
    }
}

fn put_stream(path: &Path, bytes: &[u8], what: &str) -> Result<Put, Stop> {
    if fs::metadata(path).is_ok_and(|found| found.file_type().is_block_device()) {
        return Err(Stop::Trouble(format!("{what}: it is a disk")));
    }
    let mut to = OpenOptions::new().append(true).open(path).map_err(|why| trouble(what, why))?;
    put_all(&mut to, bytes, what)
}
