//! waterbear's programs through Mortarbee: statements become a listing with source lines, Mortarbee rewrites it, and by the stems each
//! statement comes back as it was unless its form or target changed. Nothing here decides a rewrite; the caller holds what goes in and
//! what comes back against the images.
//!
//! MORTARBEE_DUMP=PREFIX writes PREFIX.lst (the listing handed over) and PREFIX.names (number and name, a line each).
//! MORTARBEE_SKELETON=1 and MORTARBEE_BARE=1 allow the levels of these names where nothing else fits.

mod archive;
mod back;
mod data;
mod expressions;
mod frames;
mod inert;
mod levels;
mod names;
pub mod program;
mod shape;
pub mod tables;
mod values;
mod writer;

pub use back::{Fate, Target};
use frames::Frame;
use levels::{Level, Options};
use program::Program;
use shape::Shape;
use values::Values;
use writer::Written;

/// Why a program cannot be optimized, and at which statement.
#[derive(Clone, Debug, PartialEq)]
pub struct Stopped {
    pub statement: Option<usize>,
    pub text: String,
}

/// What a run comes to.
#[derive(Clone, Debug)]
pub struct Outcome {
    /// What became of each statement.
    pub fates: Vec<Fate>,
    /// The image before and after, with zeros for the statements that are inert. It ends with the last byte of a statement that has bytes.
    pub before: Vec<u8>,
    pub image: Vec<u8>,
    pub inert: Vec<bool>,
    /// Pads that C-11 does not have (a multiple over 256): in the image they are orgs to these locations.
    pub pins: Vec<(usize, usize)>,
    /// A transfer goes to a number at or behind the first of them: it is right only where they are orgs.
    pub numbers_behind_pins: bool,
}

/// Rewrites a program. With `dump` the listing is written out, if a variable asks for it.
pub fn rewrite(program: &Program, dump: bool) -> Result<Outcome, Stopped> {
    let values = Values::new(program);
    let shape = Shape::new(program);
    let mut why = None;
    for options in levels::allowed() {
        match at_level(program, &values, &shape, options, dump) {
            Ok(outcome) => return Ok(outcome),
            // What one way of writing cannot say a later one may: a value that passes 32 bits is handed over as what it comes to.
            Err(stopped) => why = Some(stopped),
        }
    }
    Err(why.unwrap_or(Stopped { statement: None, text: "no level is allowed".to_owned() }))
}

fn at_level(program: &Program, values: &Values, shape: &Shape, options: Options, dump: bool) -> Result<Outcome, Stopped> {
    let Written { frames, names, inert, pins } = writer::write(program, values, shape, options)?;
    if let Some(frame) = frames::first_beyond(&frames) {
        return Err(Stopped { statement: Some(frame.statement), text: too_long(&frames, options.level) });
    }
    let text = frames::listing(&frames);
    if dump {
        dumped(&text, &names.lines());
    }
    if options.level >= Level::Skeleton {
        eprintln!(
            "Mortarbee: the listing has sizes in place of some statements ({:?}); that it is rewritten alike is argued, not proved",
            options.level
        );
    }
    let answer = archive::optimized(&text).map_err(|refusal| refused(&frames, &refusal))?;
    let fates = back::fates(program, values, &frames, &answer).ok_or_else(internal)?;
    let behind = pins.first().map_or(i32::MAX, |(place, _)| program.statements[*place].at);
    let numbers = program.statements.iter().filter_map(|s| values.constant(s.target()?));
    let numbers_behind_pins = numbers.into_iter().any(|number| number >= behind);
    Ok(Outcome { fates, before: answer.before, image: answer.image, inert, pins, numbers_behind_pins })
}

pub fn internal() -> Stopped {
    Stopped { statement: None, text: "internal: the image is not the one that was proved; please report this program".to_owned() }
}

fn refused(frames: &[Frame], refusal: &archive::Refusal) -> Stopped {
    let why = match refusal.number {
        5 => "an .org goes back; waterbear allows it, Mortarbee does not".to_owned(),
        6 => "the program passes 65,536 bytes".to_owned(),
        7 => "a value passes 32 bits".to_owned(),
        number => format!("refusal {number}; `mortarbee explain {number}` has more"),
    };
    Stopped { statement: frames.get(refusal.place).map(|frame| frame.statement), text: format!("{why} ({})", refusal.line) }
}

fn too_long(frames: &[Frame], level: Level) -> String {
    let (count, total) = (frames.len(), frames::total(frames));
    let limits = format!("{} and {} frame bytes of {}", tables::STATEMENTS, total, tables::TOTAL);
    let more = match level {
        Level::Whole | Level::Packed => "; MORTARBEE_SKELETON=1 hands over less, which is argued to be rewritten alike, not proved",
        Level::Skeleton => "; MORTARBEE_BARE=1 hands over less, which is argued to be rewritten alike, not proved",
        Level::Bare => "",
    };
    format!("after packing it has {count} statements of {limits}; the limit is passed here{more}")
}

fn dumped(listing: &[u8], names: &str) {
    let Some(prefix) = std::env::var_os("MORTARBEE_DUMP") else { return };
    let named = |end: &str| {
        let mut path = prefix.clone();
        path.push(end);
        path
    };
    let written = std::fs::write(named(".lst"), listing).and_then(|_| std::fs::write(named(".names"), names));
    if let Err(why) = written {
        eprintln!("MORTARBEE_DUMP: {why}");
    }
}
