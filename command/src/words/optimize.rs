//! `optimize`, and no word at all: document 01's job; under an edition's settings; or into files, all or none.

use super::stems::list;
use super::targets::marked;
use crate::answer::{self, Answer, Stop};
use crate::call::Call;
use crate::files::{self, Input, Target};
use border::{check, owned, print_run, Refusal, Settings};
use std::ffi::OsStr;

pub fn run(call: &Call) -> Result<Answer, Stop> {
    match switches(call)? {
        Switches::Settings(settings) if is_parted(call) => parts(call, settings),
        Switches::Settings(settings) => answer::of_listing(call, |input| page(input, settings)),
        #[cfg(feature = "all")]
        Switches::Refused(answer) => Ok(answer),
    }
}

/// What document 01's program prints, byte for byte as it is proved.
fn page(input: &Input, settings: Settings) -> Result<Answer, Refusal> {
    let (made, said) = together(|| print_run(settings, &input.bytes), || marked(&input.name, settings, &input.bytes));
    Ok(Answer::good(made?.page).saying(said))
}

// ---- into files

const LISTING: &str = "--listing";
const IMAGE: &str = "--image";
const STEMS: &str = "--stems";

fn is_parted(call: &Call) -> bool {
    [LISTING, IMAGE, STEMS].iter().any(|option| call.value(option).is_some())
}

/// The listing without its last line, the image and the stems, each to its file: all or none. The line 7F is the answer.
fn parts(call: &Call, settings: Settings) -> Result<Answer, Stop> {
    let mut wanted: Vec<(&OsStr, Vec<u8>)> = vec![];
    let mut answer = answer::of_listing(call, |input| {
        let (made, said) = together(|| print_run(settings, &input.bytes), || marked(&input.name, settings, &input.bytes));
        let made = made?;
        let (listing, last) = made.parts();
        wanted.extend(call.value(LISTING).map(|file| (file, listing.to_vec())));
        wanted.extend(call.value(IMAGE).map(|file| (file, made.image.clone())));
        if let Some(file) = call.value(STEMS) {
            let (_, stems) = owned::optimize_stems(settings, &input.bytes)?;
            wanted.push((file, list(&stems).into_bytes()));
        }
        let length = call.value(LISTING).map_or(String::new(), |file| length(file, listing));
        Ok(Answer::good(last).saying(said).saying(length))
    })?;
    if !answer.refused {
        put_parts(call.out(), &wanted)?;
        answer.done = "mortarbee: the files are written\n".into();
    }
    Ok(answer)
}

/// What is said of a new listing that has become too long to be handed in: the total limit is judged on the input alone (C-15).
fn length(file: &OsStr, listing: &[u8]) -> String {
    match check(listing) {
        Err(refusal) if refusal.number == 2 => {
            format!("{}: warning: the new listing passes the total limit: handed in again, it is refused 2\n", file.to_string_lossy())
        }
        _ => String::new(),
    }
}

/// Files are replaced, and nothing else is written to: a pipe could not be given back. Each is another than the answer's.
fn put_parts(out: &OsStr, wanted: &[(&OsStr, Vec<u8>)]) -> Result<(), Stop> {
    let mut all = vec![];
    for (k, (file, bytes)) in wanted.iter().enumerate() {
        if wanted[..k].iter().any(|(other, _)| files::same(other, file)) {
            return Err(Stop::Misuse(format!("{} is named twice", file.to_string_lossy())));
        }
        match files::target_of(file)? {
            Target::File(_) if files::same(file, out) => {
                return Err(Stop::Misuse(format!("{} is where the line 7F goes, too: it needs another file", file.to_string_lossy())))
            }
            Target::File(path) => all.push((path, bytes.as_slice())),
            _ => return Err(Stop::Misuse(format!("{} is no file: {LISTING}, {IMAGE} and {STEMS} write files", file.to_string_lossy()))),
        }
    }
    files::replace_all(&all)
}

// ---- the switches

enum Switches {
    Settings(Settings),
    #[cfg(feature = "all")]
    Refused(Answer),
}

/// Those that are typed: an edition's are beyond this build.
#[cfg(not(feature = "all"))]
fn switches(call: &Call) -> Result<Switches, Stop> {
    Ok(Switches::Settings(call.settings()))
}

/// Those that are typed, or those of an edition in a store.
#[cfg(feature = "all")]
fn switches(call: &Call) -> Result<Switches, Stop> {
    use crate::call::two_bytes;
    let (family, edition) = (call.value("--family"), call.value("--edition"));
    if call.value("--store").is_none() && family.is_none() && edition.is_none() {
        return Ok(Switches::Settings(call.settings()));
    }
    if call.has_switches() {
        return Err(Stop::Misuse("an edition has its own switches: --store, --family and --edition take no other option".into()));
    }
    let family = two_bytes(family.ok_or_else(|| Stop::Misuse("which family? --family F".into()))?)?;
    let edition = edition.map(two_bytes).transpose()?;
    let store = crate::store::take(call, false)?;
    let found = match edition {
        Some(edition) => border::get_edition(&store.bytes, family, edition),
        None => border::get_newest(&store.bytes, family),
    };
    Ok(match found {
        Ok(edition) => Switches::Settings(edition.settings),
        Err(refusal) => Switches::Refused(Answer::refused(refusal, store.refusal(refusal, Some(family)))),
    })
}

// ---- two runs at once

/// The run, and beside it on another processor the one that `targets` makes again: the archive has no state of its own.
fn together<T>(run: impl FnOnce() -> T, beside: impl Fn() -> String + Sync) -> (T, String) {
    std::thread::scope(|scope| {
        let started = std::thread::Builder::new().stack_size(STACK).spawn_scoped(scope, &beside);
        let made = run();
        let told = match started {
            Ok(started) => started.join().unwrap_or_default(),
            Err(_) => beside(),
        };
        (made, told)
    })
}

/// As much as the main thread has: the archive's rooms lie on the stack.
const STACK: usize = 8 << 20;
