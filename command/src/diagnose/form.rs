//! Refusals 1 and 2: where a line breaks the form of a listing, and which limit is passed.

use super::frames::*;
use super::{named, Reason};

/// Why a line breaks the form.
pub fn breach(line: &[u8], ended: bool, marked: bool) -> Reason {
    let Some((cause, at)) = breach_of(line, ended, marked) else {
        return (format!("column {}: the form is broken", line.len() + 1), None);
    };
    (format!("column {}: {}", at + 1, found(cause, line, at)), Some(at))
}

fn found(cause: Cause, line: &[u8], at: usize) -> String {
    let pair = byte_at(line, at);
    match cause {
        Cause::Empty => "the line is empty; a statement is expected".into(),
        Cause::Character => format!("{}; pairs of the digits 0 to 9 and A to F are expected, and nothing else", other(line, at)),
        Cause::Odd => "the count of digits is odd; one more is expected".into(),
        Cause::NoLineFeed => "the text ends here; a line feed is expected behind each line".into(),
        Cause::Mark => "7D02 stands in the first line alone, and nowhere else".into(),
        Cause::Kind if pair == 0x7F => {
            "kind 7F; 01 to 08 are kinds. The last line of an answer is no statement: optimize --listing leaves it out".into()
        }
        Cause::Kind => format!("kind {pair:02X}; 01 to 08 are kinds"),
        Cause::Form => format!("form {pair:02X}; 00 to 45 are forms"),
        Cause::Register => format!("register {pair:02X}; 00 to 03 are registers"),
        Cause::Node => format!("an expression begins with {pair:02X}; it begins with 00, 01, 10 to 16 or 20 to 22"),
        Cause::Short => "the frame ends here; bytes are missing".into(),
        Cause::LeftOver => "the statement ends before here; bytes are left over".into(),
        Cause::LocalVariable => "a variable's name is below 8000".into(),
        Cause::Count => format!("count {pair:02X}; 01 to 10, which is 16, are allowed"),
        Cause::Multiple => "a pad's multiple is 0001 to 0100, which is 256".into(),
    }
}

/// A character that is no digit of a listing.
fn other(line: &[u8], at: usize) -> String {
    match line[at] {
        b' ' => "a space".into(),
        b'a'..=b'f' => "a lower-case digit".into(),
        _ => named(line, at),
    }
}

pub fn limit(text: &[u8], marked: bool, place: usize, line: &[u8]) -> Reason {
    if place >= 1024 {
        return ("1,024 statements are allowed, and this is one more".into(), None);
    }
    let most = if marked { 28_672 } else { 24_576 };
    let (_, start, _) = line_at(text, line_of(place, marked));
    let beside = line_of(place, marked) + if marked { 4 } else { 0 };
    let total = start.saturating_sub(beside) / 2 + line.len() / 2;
    if total > most && line.len() <= 2 * frame_limit(marked) {
        return (format!("with this one all frames have {total} bytes; {most} are allowed"), None);
    }
    own_limit(line, marked)
}

fn frame_limit(marked: bool) -> usize {
    if marked {
        124
    } else {
        120
    }
}

/// The limit that a line passes by itself.
pub fn own_limit(line: &[u8], marked: bool) -> Reason {
    let most = frame_limit(marked);
    if line.len() > 2 * most {
        return (format!("the frame has {} bytes; {most} are allowed", line.len().div_ceil(2)), Some(2 * most));
    }
    let is_long = |start: &usize| expression_end(line, *start).map_or(true, |end| end - start > 64);
    match expressions(line, marked).into_iter().find(is_long) {
        Some(at) => (format!("column {}: an expression of more than 32 bytes", at + 1), Some(at)),
        None => (String::new(), None),
    }
}
