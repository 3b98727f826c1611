//! Refusals of a text for people: 15 with what may stand there, and 2.

use super::frames::{is_digit, line_at};
use super::{cause_lines, head, named, quote, without_return, Reason};
use crate::files::Input;
use border::{owned, Refusal};

pub fn of_text(input: &Input, refusal: Refusal) -> String {
    let text = &input.bytes;
    let (line, _, _) = line_at(text, refusal.place);
    let (cause, column) = match refusal.number {
        15 => wrong_character(line, refusal.amount as usize),
        _ => (wide(line, refusal.place), None),
    };
    let hint = if looks_like_listing(text) { "  this looks like a listing: mortarbee text writes it for people\n" } else { "" };
    head(&input.name, "", refusal, refusal.place, column) + &cause_lines(&cause) + &quote(line, column) + hint + &allowed(input, refusal)
}

/// The first line is digit pairs, which no line for people is.
fn looks_like_listing(text: &[u8]) -> bool {
    let line = without_return(line_at(text, 0).0);
    !line.is_empty() && line.len() % 2 == 0 && line.iter().all(|c| is_digit(*c))
}

/// 15: C-19's column, "of the first byte that no good line could have there, or of the line's end".
fn wrong_character(line: &[u8], at: usize) -> Reason {
    let what = match line.get(at) {
        Some(b' ') => "a space stands beside operators only".into(),
        Some(b',') if line[..at].iter().filter(|c| **c == b',').count() > 14 => "16 items at most".into(),
        Some(c) if c.is_ascii_digit() && at > 0 && line[at - 1].is_ascii_digit() => one_digit_more(line, at).into(),
        Some(_) if is_behind_stray(line, at) => format!("{}; a space stands beside operators only", named(line, at)),
        Some(_) => format!("{}, which no good line has here", named(line, at)),
        None if is_behind_stray(line, at) => "the line ends with a space; a space stands beside operators only".into(),
        None if good_to(line).is_some() => "the line ends here; more is expected".into(),
        None => "the text ends here; a line feed is expected behind each line".into(),
    };
    (format!("column {}: {what}", at + 1), Some(at))
}

/// A digit behind others that can have no more of them.
fn one_digit_more(line: &[u8], at: usize) -> &'static str {
    let digits = line[..at].iter().rev().take_while(|c| c.is_ascii_digit()).count();
    let front = &line[..at - digits];
    match (front.ends_with(b"g") || front.ends_with(b".l"), digits) {
        (true, 5) => "a name has five digits",
        (true, _) => "the name's number is too large: 32767 is the last",
        _ => "the number is too large",
    }
}

/// Whether what stands here is behind a space that no operator is before. Behind a mnemonic one space is good.
fn is_behind_stray(line: &[u8], at: usize) -> bool {
    let front = line[..at.min(line.len())].trim_ascii_end();
    let spaces = at - front.len();
    spaces > 0 && (spaces > 1 || front.contains(&b' ')) && !front.last().is_some_and(|c| b"+-*/^&|<>".contains(c))
}

fn wide(line: &[u8], place: usize) -> String {
    if place >= 1024 {
        return "1,024 statements are allowed, and this is one more".into();
    }
    if line.len() > 1024 {
        return format!("the line has {} bytes; 1,024 are allowed", line.len());
    }
    "an expression may have 32 bytes, a frame 120, and all frames 24,576".into()
}

/// How far a line is good: the first byte that no good line could have there; nothing where it is a good line.
fn good_to(line: &[u8]) -> Option<usize> {
    match owned::read(&[line, b"\n"].concat()) {
        Err(Refusal { number: 15, amount, .. }) => Some(amount as usize),
        _ => None,
    }
}

/// Whether some good line begins so.
fn may_stand(front: &[u8], c: u8) -> bool {
    good_to(&[front, &[c]].concat()).is_none_or(|good| good > front.len())
}

/// What may stand at the column of a line that is refused 15: each byte with which some good line goes on, found by asking the reader.
fn allowed(input: &Input, refusal: Refusal) -> String {
    let (line, _, _) = line_at(&input.bytes, refusal.place);
    let Some(column) = good_to(line).filter(|_| refusal.number == 15) else { return String::new() };
    if column > 1024 || column > line.len() {
        return String::new();
    }
    let front = &line[..column];
    let mut said = format!("{}:{}:{}: what may stand here:", input.name, refusal.place + 1, column + 1);
    let stand: Vec<u8> = (33..127).filter(|c| may_stand(front, *c)).collect();
    // Digits and letters one behind the other are told by the first and the last.
    for run in stand.chunk_by(|a, b| a + 1 == *b && a.is_ascii_alphanumeric() && b.is_ascii_alphanumeric()) {
        let (first, last) = (run[0] as char, run[run.len() - 1] as char);
        said += &match run.len() {
            1 => format!(" {first}"),
            2 => format!(" {first} {last}"),
            _ => format!(" {first}-{last}"),
        };
    }
    if may_stand(front, b' ') {
        said += " a space";
    }
    if good_to(front).is_none() {
        said += " the end of the line";
    }
    said + "\n"
}
