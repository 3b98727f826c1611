//! What is read: a file, or standard input.

use super::in_words;
use crate::answer::Stop;
use std::ffi::OsStr;
use std::fs;
use std::io::ErrorKind;
use std::path::Path;

/// Whether a file is there that can be read.
pub fn look_at(file: &OsStr) -> Result<(), Stop> {
    let name = Path::new(file).display();
    let found = fs::metadata(file).map_err(|why| match why.kind() {
        ErrorKind::NotFound | ErrorKind::NotADirectory => Stop::Trouble(format!("{name}: there is no such file")),
        _ => Stop::Trouble(format!("{name} cannot be read: {}", in_words(&why))),
    })?;
    if found.is_dir() {
        return Err(Stop::Trouble(format!("{name} is a folder")));
    }
    Ok(())
}

#[cfg(feature = "all")]
pub use archived::take;
#[cfg(feature = "core")]
pub use archived::{input, Input};

#[cfg(feature = "core")]
mod archived {
    use super::look_at;
    use crate::answer::Stop;
    use crate::call::Call;
    use crate::diagnose::frames::feeds;
    use crate::files::in_words;
    use crate::life::LINES;
    use border::streams::was_open;
    use std::ffi::OsStr;
    use std::fs::File;
    use std::io::{self, IsTerminal, Read};
    use std::os::fd::AsFd;
    use std::path::Path;
    use std::sync::atomic::Ordering;

    /// A file's bytes, and the name by which messages call it.
    pub struct Input {
        pub name: String,
        pub bytes: Vec<u8>,
        /// It was a file or a terminal, and nothing came: an accident rather than a listing of no statements.
        is_suspect: bool,
    }

    impl Input {
        /// What a run makes, taken as input.
        #[cfg(feature = "all")]
        pub fn made(name: &str, bytes: Vec<u8>) -> Input {
            Input { name: name.into(), bytes, is_suspect: false }
        }

        /// What is said of an empty listing that looks like an accident; else nothing.
        pub fn warning(&self) -> String {
            if self.is_suspect && self.bytes.is_empty() {
                format!("{}: warning: nothing is in it; a listing of no statements is accepted\n", self.name)
            } else {
                String::new()
            }
        }
    }

    /// No file or - is standard input.
    pub fn take(file: Option<&OsStr>) -> Result<Input, Stop> {
        let input = match file {
            Some(file) if file != "-" => take_file(file),
            _ => take_stdin(file.is_some()),
        }?;
        LINES.store(feeds(&input.bytes), Ordering::Relaxed);
        Ok(input)
    }

    /// What most words read: one file.
    pub fn input(call: &Call) -> Result<Input, Stop> {
        take(call.file(0))
    }

    fn read_all(name: String, mut file: File) -> Result<Input, Stop> {
        let mut bytes = vec![];
        file.read_to_end(&mut bytes).map_err(|why| Stop::Trouble(format!("{name} cannot be read: {}", in_words(&why))))?;
        let is_suspect = file.is_terminal() || file.metadata().is_ok_and(|found| found.is_file());
        Ok(Input { name, bytes, is_suspect })
    }

    fn take_file(file: &OsStr) -> Result<Input, Stop> {
        look_at(file)?;
        let name = Path::new(file).display().to_string();
        let open = File::open(file).map_err(|why| Stop::Trouble(format!("{name} cannot be read: {}", in_words(&why))))?;
        read_all(name, open)
    }

    /// A terminal is read only where `-` asks for it.
    fn take_stdin(asked: bool) -> Result<Input, Stop> {
        if !was_open(0) {
            return Err(Stop::Misuse("no input: standard input is closed".into()));
        }
        let stdin = io::stdin();
        if stdin.is_terminal() && !asked {
            return Err(Stop::Misuse("no input: name a file, or put one on standard input".into()));
        }
        let lent =
            stdin.as_fd().try_clone_to_owned().map_err(|why| Stop::Trouble(format!("<stdin> cannot be read: {}", in_words(&why))))?;
        read_all("<stdin>".into(), File::from(lent))
    }
}
