//! The store of C-24: 32 places of five bytes. One that does not exist is an empty one; it is changed under its folder's lock, and
//! replaced whole.

use crate::answer::Stop;
use crate::call::Call;
use crate::diagnose;
use crate::files::{self, folder_of, replace, resolve};
use border::{get_newest, show_place, Edition, Refusal, STORE_ROOM};
use std::fs::{self, File};
use std::io::ErrorKind;
use std::path::{Path, PathBuf};

const MOST: u64 = 4096;

pub struct Store {
    pub path: PathBuf,
    pub name: String,
    pub bytes: Vec<u8>,
    pub is_new: bool,
    /// Held to the end: nobody else changes the store.
    _lock: Option<File>,
}

/// The store that `--store` names, read or, to be changed, locked and then read.
pub fn take(call: &Call, changing: bool) -> Result<Store, Stop> {
    let file = call.value("--store").filter(|file| *file != "-").ok_or_else(|| Stop::Misuse("which store? --store FILE".into()))?;
    let path = resolve(file.as_ref())?;
    let name = path.display().to_string();
    let found = fs::metadata(&path).ok();
    if found.as_ref().is_some_and(|found| !found.is_file()) {
        return Err(Stop::Trouble(format!("{name} is no file")));
    }
    let lock = if changing { Some(lock(&path)?) } else { None };
    if changing && found.is_some() && fs::OpenOptions::new().append(true).open(&path).is_err() {
        return Err(Stop::Trouble(format!("{name} is write-protected")));
    }
    let (bytes, is_new) = match fs::metadata(&path) {
        Ok(found) if found.len() > MOST => return Err(Stop::Trouble(format!("{name} is no store: it has more than 4,096 bytes"))),
        Err(why) if why.kind() == ErrorKind::NotFound => (vec![0; STORE_ROOM], true),
        _ => (files::take(Some(path.as_os_str()))?.bytes, false),
    };
    Ok(Store { path, name, bytes, is_new, _lock: lock })
}

fn lock(path: &Path) -> Result<File, Stop> {
    let folder = folder_of(path);
    let no = |why: std::io::Error| Stop::Trouble(format!("{} cannot be locked: {}", folder.display(), files::in_words(&why)));
    let lock = File::open(&folder).map_err(no)?;
    lock.lock().map_err(no)?;
    Ok(lock)
}

/// How many places a store has.
const PLACES: usize = 32;

impl Store {
    pub fn put(&self) -> Result<(), Stop> {
        replace(&self.path, &self.bytes)
    }

    /// What is said of a store that is not there.
    pub fn absence(&self) -> String {
        self.if_new("there is no such store; it is taken for an empty one")
    }

    /// What is said of one that was not there, and is now.
    pub fn novelty(&self) -> String {
        self.if_new("there was no such store; this is a new one")
    }

    fn if_new(&self, said: &str) -> String {
        if self.is_new {
            format!("{}: warning: {said}\n", self.name)
        } else {
            String::new()
        }
    }

    /// The settings, by family and edition, unless the store is refused.
    pub fn settings(&self) -> Result<Vec<(u16, Edition)>, Refusal> {
        let all = (0..PLACES).map(|k| show_place(&self.bytes, k)).collect::<Result<Vec<_>, _>>()?;
        Ok(all.into_iter().flatten().collect())
    }

    /// A refusal about a store (12, 17 to 19) in words.
    pub fn refusal(&self, refusal: Refusal, family: Option<u16>) -> String {
        let mut said = self.absence() + &diagnose::of_file(&self.name, refusal);
        match refusal.number {
            12 => said += &format!("  the store has {} bytes; 160 are needed\n", self.bytes.len()),
            17 | 18 => {
                if let Some(family) = family {
                    said += &self.known(family);
                }
            }
            19 => said += &self.fault(),
            _ => {}
        }
        if let (18, Some(family)) = (refusal.number, family) {
            said += match get_newest(&self.bytes, family) {
                Ok(edition) if edition.number == 65_535 => "  65,535 is the last edition that a family can have\n",
                _ => "  all 32 places of the store are taken: settings drop gives back those of a family's old editions\n",
            };
        }
        said
    }

    /// What the store has of a family.
    fn known(&self, family: u16) -> String {
        match get_newest(&self.bytes, family) {
            Ok(edition) => format!("  family {family} is at edition {}\n", edition.number),
            Err(_) => format!("  family {family} has no edition\n"),
        }
    }

    /// 19: the first place at fault. Read here, since the archive shows no place of a store that it refuses.
    fn fault(&self) -> String {
        let two = |five: &[u8], i: usize| u16::from_be_bytes([five[i], five[i + 1]]);
        let places: Vec<_> = self.bytes.chunks_exact(5).take(PLACES).map(|five| (two(five, 0), two(five, 2), five[4])).collect();
        for (k, (family, edition, switches)) in places.iter().enumerate() {
            let at = format!("  setting {k} of the store, counted from 0, ");
            let is_twice = |other: &&(u16, u16, u8)| (other.0, other.1) == (*family, *edition);
            if *edition == 0 && (*family, *switches) != (0, 0) {
                return at + "has edition 0, and editions are numbered from 1 on\n";
            } else if *edition > 0 && *switches > 7 {
                return at + "has switches above 7\n";
            } else if let Some(j) = places[..k].iter().position(|other| *edition > 0 && is_twice(&other)) {
                return at + &format!("is edition {edition} of family {family}, as setting {j} is\n");
            }
        }
        String::new()
    }
}
