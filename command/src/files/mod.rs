//! What is read and written. Each write of an answer is looked at: one that fails is status 2, unless the reader wants no more.

mod input; // what is read
mod output; // standard output, streams, and where a name leads
mod replace; // files, replaced whole or not at all

pub use input::look_at;
#[cfg(feature = "all")]
pub use input::take;
#[cfg(feature = "core")]
pub use input::{input, Input};
pub use output::{put_file, put_out, target_of, Put, Target};
pub use replace::replace_all;
#[cfg(feature = "all")]
pub use replace::{folder_of, replace, resolve};

use crate::answer::Stop;
use std::io;
#[cfg(feature = "core")]
use std::{
    ffi::OsStr,
    fs,
    os::unix::fs::MetadataExt,
    path::{Path, PathBuf},
};

fn trouble(what: &str, why: io::Error) -> Stop {
    Stop::Trouble(format!("{what}: {}", in_words(&why)))
}

/// What the system says, without its number.
pub fn in_words(why: &io::Error) -> String {
    let said = why.to_string();
    match said.find(" (os error") {
        Some(end) => said[..end].to_lowercase(),
        None => said,
    }
}

/// Whether two names are the same file, or would be: one that is not there yet is its folder and its name.
#[cfg(feature = "core")]
pub fn same(one: &OsStr, other: &OsStr) -> bool {
    match (fs::metadata(one), fs::metadata(other)) {
        (Ok(a), Ok(b)) => a.dev() == b.dev() && a.ino() == b.ino(),
        (Err(_), Err(_)) => one == other || place_of(one).is_some_and(|place| place_of(other) == Some(place)),
        _ => false,
    }
}

/// The folder behind its links, and the name there.
#[cfg(feature = "core")]
fn place_of(file: &OsStr) -> Option<(PathBuf, &OsStr)> {
    let path = Path::new(file);
    Some((fs::canonicalize(replace::folder_of(path)).ok()?, path.file_name()?))
}
