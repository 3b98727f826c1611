//! `differences`: the lines 70 to 73 of two listings, or of one and what the optimizer makes of it (C-13).

use crate::answer::{Answer, Stop};
use crate::call::Call;
use crate::diagnose::frames::{is_digit, is_marked, pair_at};
use crate::diagnose::{self, of_listing, of_part};
use crate::files::{self, Input};
use crate::life::is_plain;
use border::{owned, NotCompared, Settings, Whose};
use std::io::IsTerminal;

pub fn run(call: &Call) -> Result<Answer, Stop> {
    let (Some(first), second, pairing) = (call.file(0), call.file(1), call.value("--pairing")) else {
        return Err(Stop::Misuse("differences needs a listing, or two".into()));
    };
    if second.is_none() && pairing.is_some() {
        return Err(Stop::Misuse("--pairing needs a second listing".into()));
    }
    if [Some(first), second, pairing].iter().filter(|file| **file == Some("-".as_ref())).count() > 1 {
        return Err(Stop::Misuse("standard input can be one of the files alone".into()));
    }
    let first = files::take(Some(first))?;
    let Some(second) = second else { return Ok(coloured(call, own(&first))) };
    let second = files::take(Some(second))?;
    let Some(pairing) = pairing else { return Ok(coloured(call, compare(&first, &second, None))) };
    let pairing = files::take(Some(pairing))?;
    let list = list_of(&pairing.bytes)?;
    Ok(coloured(call, compare(&first, &second, Some((&pairing.name, &list)))))
}

/// C-18: "The tool of C-13 must ask for them": comments stay, so that what is removed is what was rewritten.
fn own(first: &Input) -> Answer {
    let settings = Settings { comments: true, ..Settings::default() };
    match owned::optimize_stems(settings, &first.bytes) {
        Ok((run, stems)) => compare(first, &Input::made("what optimize makes of it", run.listing), Some(("its stems", &stems))),
        Err(refusal) => Answer::refused(refusal, of_listing(&first.name, refusal, &first.bytes)),
    }
}

fn compare(first: &Input, second: &Input, pairing: Option<(&str, &[u16])>) -> Answer {
    let NotCompared { whose, refusal } = match owned::differences(&first.bytes, &second.bytes, pairing.map(|(_, list)| list)) {
        Ok(lines) => return Answer::good(lines),
        Err(refused) => refused,
    };
    let said = match whose {
        Whose::First => of_part(&first.name, "the first listing: ", 0, refusal, &first.bytes),
        Whose::Second if is_of_other_form(first, second) => other_form(first, second),
        Whose::Second => of_part(&second.name, "the second listing: ", 0, refusal, &second.bytes),
        Whose::Both => {
            let file = pairing.map_or(first.name.as_str(), |(name, _)| name);
            format!("{}  entry {}, counted from 0\n", diagnose::of_file(file, refusal), refusal.place)
        }
    };
    Answer::refused(refusal, said)
}

/// C-20: "in C-13 a second listing of the other form is 1, place 0", before its own lines: by itself it may be as good as any.
fn is_of_other_form(first: &Input, second: &Input) -> bool {
    is_marked(&first.bytes) != is_marked(&second.bytes)
}

fn other_form(first: &Input, second: &Input) -> String {
    let (marked, plain) = if is_marked(&first.bytes) { (first, second) } else { (second, first) };
    format!(
        "{}:1:1: error: the second listing: refused 1, statement 0: the listings are not of the same form\n  {} begins with 7D02 (source lines), {} does not\n",
        second.name, marked.name, plain.name
    )
}

/// A list as `stems` prints it: four upper-case digits and a line feed each.
fn list_of(text: &[u8]) -> Result<Vec<u16>, Stop> {
    let entries = text.chunks(5).enumerate().map(|(k, five)| {
        if five.len() == 5 && five[4] == b'\n' && five[..4].iter().all(|c| is_digit(*c)) {
            return Ok(pair_at(five, 0));
        }
        let line = k + 1;
        Err(Stop::Trouble(format!(
            "the pairing is no list as `stems` prints it: line {line} is not four upper-case digits and a line feed"
        )))
    });
    // One more than a listing has statements, so that one too many is seen.
    Ok(entries.collect::<Result<Vec<u16>, Stop>>()?.into_iter().take(1025).collect())
}

/// On a terminal removed lines are red and added ones green; in a pipe or a file there is no colour.
fn coloured(call: &Call, answer: Answer) -> Answer {
    let to_file = call.output.as_ref().is_some_and(|output| output != "-");
    if answer.refused || is_plain() || to_file || !std::io::stdout().is_terminal() {
        return answer;
    }
    let mut out = vec![];
    for line in answer.out.split(|c| *c == b'\n').filter(|line| !line.is_empty()) {
        let (before, behind) = match line.get(..2) {
            Some(b"71") => ("\x1b[31m", "\x1b[0m"),
            Some(b"72") => ("\x1b[32m", "\x1b[0m"),
            _ => ("", ""),
        };
        out.extend_from_slice(&[before.as_bytes(), line, behind.as_bytes(), b"\n"].concat());
    }
    Answer { out, ..answer }
}
