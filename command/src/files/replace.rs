//! Files, replaced whole or not at all: a new one is written beside the old one, brought to the disk, and takes its name.

use super::trouble;
use crate::answer::Stop;
use border::streams::while_signals_wait;
use std::fs::{self, File, OpenOptions};
use std::io::{self, ErrorKind, Write};
use std::os::unix::fs::{chown, MetadataExt};
use std::path::{Path, PathBuf};

/// The path behind its links; the folder it stands in has to be there.
pub fn resolve(path: &Path) -> Result<PathBuf, Stop> {
    let name = path.display();
    let resolved = match fs::symlink_metadata(path) {
        Ok(found) if found.is_symlink() => fs::canonicalize(path).map_err(|_| Stop::Trouble(format!("{name} is a link to nothing")))?,
        _ => path.to_owned(),
    };
    let folder = folder_of(&resolved);
    if !folder.is_dir() || fs::metadata(folder.join(".")).is_err() {
        return Err(Stop::Trouble(format!("{} is no folder that can be looked into", folder.display())));
    }
    Ok(resolved)
}

pub fn folder_of(path: &Path) -> PathBuf {
    match path.parent() {
        Some(folder) if folder != Path::new("") => folder.to_owned(),
        _ => PathBuf::from("."),
    }
}

/// A new file beside its target, not yet under its name. It is gone where it is dropped before that.
struct Beside {
    path: PathBuf,
    target: PathBuf,
    named: bool,
}

impl Drop for Beside {
    fn drop(&mut self) {
        if !self.named {
            let _ = fs::remove_file(&self.path);
        }
    }
}

impl Beside {
    /// Written and on the disk, with the rights of the file that it replaces.
    fn write(target: &Path, bytes: &[u8]) -> Result<Beside, Stop> {
        let name = target.display();
        let (beside, mut file) =
            Beside::make(target).map_err(|why| trouble(&format!("no file can be made beside {name}; it is as it was"), why))?;
        file.write_all(bytes)
            .and_then(|()| file.sync_all())
            .map_err(|why| trouble(&format!("{name} cannot be written; it is as it was"), why))?;
        if let Ok(old) = fs::metadata(target) {
            let _ = chown(&beside.path, Some(old.uid()), Some(old.gid()));
            fs::set_permissions(&beside.path, old.permissions())
                .map_err(|why| trouble(&format!("{name} is as it was: its rights cannot be kept"), why))?;
        }
        Ok(beside)
    }

    fn make(target: &Path) -> io::Result<(Beside, File)> {
        let folder = folder_of(target);
        let mut k = 0;
        loop {
            let path = folder.join(format!(".mortarbee.{}.{k}", std::process::id()));
            match OpenOptions::new().write(true).create_new(true).open(&path) {
                Ok(file) => return Ok((Beside { path, target: target.to_owned(), named: false }, file)),
                Err(why) if why.kind() == ErrorKind::AlreadyExists && k < 1000 => k += 1,
                Err(why) => return Err(why),
            }
        }
    }

    fn take_name(&mut self) -> io::Result<()> {
        fs::rename(&self.path, &self.target)?;
        self.named = true;
        Ok(())
    }
}

/// The file becomes these bytes, whole or not at all.
pub fn replace(target: &Path, bytes: &[u8]) -> Result<(), Stop> {
    replace_all(&[(target.to_owned(), bytes)])
}

/// Several files, all or none: all are written and on the disk before the first takes its name, and one that cannot brings back those
/// before it, or says which it could not. A signal that would end the process waits so long: it finds all or none, and no file beside
/// them.
pub fn replace_all(files: &[(PathBuf, &[u8])]) -> Result<(), Stop> {
    while_signals_wait(|| replace_each(files))
}

fn replace_each(files: &[(PathBuf, &[u8])]) -> Result<(), Stop> {
    let old = if files.len() > 1 { files.iter().map(|(path, _)| old_of(path)).collect::<Result<_, _>>()? } else { vec![] };
    let mut all = files.iter().map(|(path, bytes)| Beside::write(path, bytes)).collect::<Result<Vec<_>, _>>()?;
    for (k, beside) in all.iter_mut().enumerate() {
        if let Err(why) = beside.take_name() {
            let what = format!("{} cannot be replaced; it is as it was", files[k].0.display());
            return Err(trouble(&(bring_back(&files[..k], &old) + &what), why));
        }
    }
    files.iter().try_for_each(|(path, _)| sync_folder(path))
}

/// What a file was, none if it was not there. One that cannot be read could not be brought back.
fn old_of(path: &Path) -> Result<Option<Vec<u8>>, Stop> {
    match fs::read(path) {
        Ok(bytes) => Ok(Some(bytes)),
        Err(why) if why.kind() == ErrorKind::NotFound => Ok(None),
        Err(why) => Err(trouble(&format!("{} cannot be read, and so not be brought back; all is as it was", path.display()), why)),
    }
}

/// The files become what they were. What is said is which of them do not.
fn bring_back(files: &[(PathBuf, &[u8])], old: &[Option<Vec<u8>>]) -> String {
    let is_old = |path: &Path, old: &Option<Vec<u8>>| match old {
        Some(bytes) => Beside::write(path, bytes).is_ok_and(|mut beside| beside.take_name().is_ok()),
        None => fs::remove_file(path).is_ok(),
    };
    let left = files.iter().zip(old).filter(|((path, _), old)| !is_old(path, old));
    left.map(|((path, _), _)| format!("{} is the new one, and cannot be brought back; ", path.display())).collect()
}

/// The name is on the disk, too.
fn sync_folder(path: &Path) -> Result<(), Stop> {
    let synced = File::open(folder_of(path)).and_then(|folder| folder.sync_all());
    match synced {
        // A folder that may be written to and not read, or a file system that has no such call: the file itself is on the disk.
        Err(why) if matches!(why.kind(), ErrorKind::PermissionDenied | ErrorKind::InvalidInput) => Ok(()),
        other => other.map_err(|why| trouble(&format!("{} is replaced, but not known to be on the disk", path.display()), why)),
    }
}
