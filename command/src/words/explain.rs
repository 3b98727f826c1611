//! `explain N`: what a refusal means, and what to look at.

use crate::answer::{Answer, Stop};
use crate::call::{number_of, Call};
use std::ffi::OsStr;

pub fn run(call: &Call) -> Result<Answer, Stop> {
    let Some(typed) = call.file(0) else { return Err(Stop::Misuse("explain takes the number of a refusal".into())) };
    let number = refusal_of(typed)?;
    let text = TEXTS.get((number as usize).wrapping_sub(1));
    text.map(|text| Answer::good(*text)).ok_or_else(|| Stop::Misuse(format!("there is no refusal {}", shown(typed, number))))
}

/// In decimal; as the 7E line has it, behind 0x or 7E, as that line itself, or in two digits that are no decimal number (0A).
fn refusal_of(typed: &OsStr) -> Result<u64, Stop> {
    let word = typed.to_string_lossy();
    let none = || Stop::Misuse(format!("{word} is no refusal's number"));
    let digits = match word.as_bytes() {
        [b'0', b'x' | b'X', ..] => return number_of(typed),
        [b'7', b'E' | b'e', b'0' | b'1', ..] => word.get(2..4),
        [b'0', b'1'..=b'9'] | [b'0' | b'1', b'A'..=b'F' | b'a'..=b'f'] => Some(word.as_ref()),
        [b'1'..=b'9'] | [b'1'..=b'9', b'0'..=b'9'] => return word.parse().map_err(|_| none()),
        _ => None,
    };
    digits.and_then(|digits| u64::from_str_radix(digits, 16).ok()).ok_or_else(none)
}

fn shown(typed: &OsStr, number: u64) -> String {
    if number < 1 << 28 {
        number.to_string()
    } else {
        typed.to_string_lossy().into()
    }
}

const TEXTS: [&str; 19] = [
    include_str!("../../../docs/words/explain-01.txt"),
    include_str!("../../../docs/words/explain-02.txt"),
    include_str!("../../../docs/words/explain-03.txt"),
    include_str!("../../../docs/words/explain-04.txt"),
    include_str!("../../../docs/words/explain-05.txt"),
    include_str!("../../../docs/words/explain-06.txt"),
    include_str!("../../../docs/words/explain-07.txt"),
    include_str!("../../../docs/words/explain-08.txt"),
    include_str!("../../../docs/words/explain-09.txt"),
    include_str!("../../../docs/words/explain-10.txt"),
    include_str!("../../../docs/words/explain-11.txt"),
    include_str!("../../../docs/words/explain-12.txt"),
    include_str!("../../../docs/words/explain-13.txt"),
    include_str!("../../../docs/words/explain-14.txt"),
    include_str!("../../../docs/words/explain-15.txt"),
    include_str!("../../../docs/words/explain-16.txt"),
    include_str!("../../../docs/words/explain-17.txt"),
    include_str!("../../../docs/words/explain-18.txt"),
    include_str!("../../../docs/words/explain-19.txt"),
];
