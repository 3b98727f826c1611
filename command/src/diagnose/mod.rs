//! A refusal in words. FILE:LINE:COL: error: refused N, statement P: what the number means; then the cause, the line, a caret under the
//! column, and the statement as text for people with its address.

mod form; // 1 and 2: the form and the limits
pub mod frames; // a listing's lines as digit pairs
mod names; // 3 and 4
mod nodes; // 7: the operator at fault
#[cfg(feature = "all")]
mod people; // a text for people

#[cfg(feature = "all")]
pub use form::{breach, own_limit};
#[cfg(feature = "all")]
pub use people::of_text;

use border::Refusal;
use frames::*;
use nodes::{address, node_at_fault};

/// What is wrong, and the character of the line to point at, from 0.
pub type Reason = (String, Option<usize>);

/// A refusal of a listing that names a statement, 1 to 11, or one that names none.
pub fn of_listing(file: &str, refusal: Refusal, text: &[u8]) -> String {
    of_part(file, "", 0, refusal, text)
}

/// The same of a listing in a file with more of them; `from` is its first line there, from 0.
pub fn of_part(file: &str, which: &str, from: usize, refusal: Refusal, text: &[u8]) -> String {
    if !refusal.is_of_statement() {
        return of_file(file, refusal);
    }
    let marked = is_marked(text);
    let at = line_of(refusal.place, marked);
    let (line, _, ended) = line_at(text, at);
    let (cause, column) = reason(refusal, text, marked, at, line, ended);
    let mut said = head(file, which, refusal, from + at, column);
    said += &cause_lines(&cause);
    said += &quote(line, column);
    if refusal.number == 1 && looks_like_text(text) {
        said += "  this looks like a text for people: mortarbee read makes a listing of it\n";
    }
    if refusal.number > 2 {
        said += &statement(text, marked, refusal.place, line);
    }
    said
}

/// A refusal of no statement.
pub fn of_file(file: &str, refusal: Refusal) -> String {
    format!("{file}: error: {refusal}\n")
}

fn head(file: &str, which: &str, refusal: Refusal, line: usize, column: Option<usize>) -> String {
    format!("{file}:{}:{}: error: {which}{refusal}\n", line + 1, column.unwrap_or(0) + 1)
}

fn cause_lines(cause: &str) -> String {
    if cause.is_empty() {
        String::new()
    } else {
        format!("  {cause}\n")
    }
}

/// The line at fault, at most as much of it as a frame may have, and the caret. What a terminal cannot show is a `?`.
fn quote(line: &[u8], column: Option<usize>) -> String {
    let n = line.len().min(248);
    if n == 0 {
        return String::new();
    }
    let shown: String = line[..n].iter().map(|c| shown(*c)).collect();
    match column {
        Some(column) if column <= n => format!("  {shown}\n  {}^\n", " ".repeat(column)),
        _ => format!("  {shown}\n"),
    }
}

fn shown(c: u8) -> char {
    if (32..127).contains(&c) {
        c as char
    } else {
        '?'
    }
}

/// A character by its name or by itself, or by its byte where it cannot be shown.
fn named(line: &[u8], at: usize) -> String {
    match line[at] {
        b'\r' => "a carriage return".into(),
        b'\t' => "a tab".into(),
        0xEF if line[at..].starts_with(b"\xEF\xBB\xBF") => "the byte EF (perhaps a byte order mark)".into(),
        c @ 32..127 => format!("the character {}", c as char),
        c => format!("the byte {c:02X}"),
    }
}

/// What other systems put before a line feed says nothing of what a text is.
fn without_return(line: &[u8]) -> &[u8] {
    line.strip_suffix(b"\r").unwrap_or(line)
}

/// The first line begins as those for people do: with a small letter or a point, and has nothing that cannot be shown.
fn looks_like_text(text: &[u8]) -> bool {
    let line = without_return(line_at(text, 0).0);
    matches!(line.first(), Some(b'.' | b'a'..=b'z')) && line.iter().all(|c| (32..127).contains(c))
}

/// The statement as text for people, with its address and its source line.
fn statement(text: &[u8], marked: bool, place: usize, line: &[u8]) -> String {
    let at = border::where_sits(text, place).map_or(String::new(), |at| format!(", at {at:06X}"));
    let source =
        if marked { format!(", source line {}", u32::from(pair_at(line, 2)) << 16 | u32::from(pair_at(line, 6))) } else { String::new() };
    let read = for_people(line, marked).map_or(String::new(), |read| format!(": {read}"));
    format!("  statement {place}{at}{source}{read}\n")
}

/// One statement for people.
fn for_people(line: &[u8], marked: bool) -> Option<String> {
    let alone = [if marked { &b"7D02\n"[..] } else { b"" }, line, b"\n"].concat();
    let read = border::owned::text(&alone).ok()?;
    Some(String::from_utf8_lossy(&read).trim_end().into())
}

fn reason(refusal: Refusal, text: &[u8], marked: bool, at: usize, line: &[u8], ended: bool) -> Reason {
    let b = behind_kind(marked);
    let place = refusal.place;
    let argument = || begins_at(line, marked, refusal.argument);
    match refusal.number {
        1 => form::breach(line, ended, marked),
        2 => form::limit(text, marked, place, line),
        3 => names::again(text, marked, at, line),
        4 => names::missing(text, marked, at, line),
        5 => (format!("its location is {}; the statements above it reach {}", pair_at(line, b), address(text, place)), Some(b)),
        6 => (format!("it begins at {}", address(text, place)), None),
        7 => operator(text, marked, place, line),
        8 => (format!("{}{}; allowed is {}", item(refusal, line), refusal.amount, range(marked, line, refusal.argument)), argument()),
        9 => (format!("{}{}; allowed is 0 to 65,535", item(refusal, line), refusal.amount), argument()),
        10 => (format!("{}{}", item(refusal, line), distance(refusal.amount)), argument()),
        _ => {
            let page = "in another page of 4,096 bytes than the address after the instruction";
            (format!("{}{}, {page}, {}", item(refusal, line), refusal.amount, address(text, place + 1)), argument())
        }
    }
}

fn operator(text: &[u8], marked: bool, place: usize, line: &[u8]) -> Reason {
    let Some(at) = node_at_fault(text, marked, place) else { return (String::new(), None) };
    let (name, divisor) = match byte_at(line, at) {
        0x10 => ("plus", ""),
        0x11 => ("minus", ""),
        0x12 => ("times", ""),
        0x13 => ("divide", " has a divisor of 0, or"),
        _ => ("operator", ""),
    };
    (format!("column {}: this {name}{divisor} leaves -2,147,483,648 to 2,147,483,647", at + 1), Some(at))
}

/// The operand by its place from 0; of data it is an item.
fn item(refusal: Refusal, line: &[u8]) -> String {
    format!("{} {} is ", if byte_at(line, 0) == 1 { "argument" } else { "item" }, refusal.argument)
}

/// Document 01: "i8 and byte data 0..255, d9 0..511, bit 0..7, 16-bit and word 0..65,535".
fn range(marked: bool, line: &[u8], argument: usize) -> &'static str {
    match byte_at(line, 0) {
        7 => "0 to 65,535",
        6 => "0 to 255",
        _ => match operands(byte_at(line, behind_kind(marked))).get(argument) {
            Some(Kind::D9) => "0 to 511",
            Some(Kind::Bit) => "0 to 7",
            Some(Kind::A12 | Kind::A16) => "0 to 65,535",
            _ => "0 to 255",
        },
    }
}

fn distance(amount: i32) -> String {
    let bytes = amount.unsigned_abs();
    if amount < 0 {
        format!("{bytes} bytes back from the address after the instruction; 128 back are allowed")
    } else {
        format!("{bytes} bytes ahead of the address after the instruction; 127 ahead are allowed")
    }
}
