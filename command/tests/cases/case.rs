//! A case: what is typed, the files that are there, standard input; and what comes out. tests/data has them as text:
//!
//! `given NAME` (for all cases of the file) and `file NAME` are files, `in` standard input, `out` and `err` what is written, `made NAME`
//! a file that is there afterwards; each is followed by its lines behind `|`. A line that ends with `\` has no line feed, `*N|` repeats
//! one, `\xHH` is a byte. `run` has the words, parted by spaces, where `\x20` is one within a word and `''` an empty word; `folder NAME`
//! is a folder, `status N` the exit status (0 where it is left out).

use std::fmt::Write;

#[derive(Clone, Default)]
pub struct Case {
    pub name: String,
    pub words: Vec<String>,
    pub folders: Vec<String>,
    pub files: Vec<(String, Vec<u8>)>,
    pub stdin: Vec<u8>,
    pub out: Vec<u8>,
    pub err: Option<Vec<u8>>,
    pub status: i32,
    pub made: Vec<(String, Vec<u8>)>,
}

/// The bytes of a text with escapes.
fn bytes_of(text: &str) -> Vec<u8> {
    let (mut out, mut rest) = (vec![], text.bytes());
    while let Some(c) = rest.next() {
        if c != b'\\' {
            out.push(c);
            continue;
        }
        let digits: String = rest.by_ref().skip(1).take(2).map(char::from).collect();
        out.push(u8::from_str_radix(&digits, 16).expect("two digits behind \\x"));
    }
    out
}

/// One line of a part: its bytes, as often as it says.
fn line_of(line: &str) -> Option<Vec<u8>> {
    let (front, text) = line.split_once('|')?;
    let times: usize = if front.is_empty() { 1 } else { front.strip_prefix('*')?.parse().ok()? };
    let (text, ended) = match text.strip_suffix('\\') {
        Some(text) => (text, false),
        None => (text, true),
    };
    let mut bytes = bytes_of(text);
    if ended {
        bytes.push(b'\n');
    }
    Some(bytes.repeat(times))
}

/// The lines of a part, up to the next.
fn part<'a>(lines: &mut std::iter::Peekable<impl Iterator<Item = &'a str>>) -> Vec<u8> {
    let mut all = vec![];
    while let Some(bytes) = lines.peek().and_then(|line| line_of(line)) {
        all.extend(bytes);
        lines.next();
    }
    all
}

fn word_of(word: &str) -> String {
    if word == "''" {
        return String::new();
    }
    String::from_utf8(bytes_of(word)).expect("a word")
}

/// The files of all cases, and the cases of a text.
pub fn parse(text: &str) -> (Vec<(String, Vec<u8>)>, Vec<Case>) {
    let (mut given, mut all): (_, Vec<Case>) = (vec![], vec![]);
    let mut lines = text.lines().filter(|line| !line.is_empty() && !line.starts_with('#')).peekable();
    while let Some(line) = lines.next() {
        let (what, rest) = line.split_once(' ').unwrap_or((line, ""));
        if what == "given" {
            given.push((rest.into(), part(&mut lines)));
            continue;
        }
        if what == "case" {
            all.push(Case { name: rest.into(), err: Some(vec![]), ..Case::default() });
            continue;
        }
        let case = all.last_mut().expect("a case comes first");
        match what {
            "run" => case.words = rest.split(' ').filter(|word| !word.is_empty()).map(word_of).collect(),
            "folder" => case.folders.push(rest.into()),
            "file" => case.files.push((rest.into(), part(&mut lines))),
            "in" => case.stdin = part(&mut lines),
            "out" => case.out = part(&mut lines),
            "err" => case.err = Some(part(&mut lines)),
            "made" => case.made.push((rest.into(), part(&mut lines))),
            "status" => case.status = rest.parse().expect("a number"),
            other => panic!("{other} is no part of a case"),
        }
    }
    (given, all)
}

// ---- the same, written again

fn escaped(bytes: &[u8]) -> String {
    let mut out = String::new();
    for c in bytes {
        match c {
            b'\\' | 0..=31 | 127.. => out += &format!("\\x{c:02X}"),
            _ => out.push(char::from(*c)),
        }
    }
    out
}

/// Lines behind `|`; those that are the same, four and more of them, as one.
fn put_part(out: &mut String, head: &str, bytes: &[u8]) {
    let _ = writeln!(out, "{head}");
    let lines: Vec<&[u8]> = bytes.split_inclusive(|c| *c == b'\n').collect();
    for same in lines.chunk_by(|a, b| a == b) {
        let shown = match same[0].strip_suffix(b"\n") {
            Some(line) => escaped(line),
            None => escaped(same[0]) + "\\",
        };
        if same.len() > 3 {
            let _ = writeln!(out, "*{}|{shown}", same.len());
        } else {
            *out += &format!("|{shown}\n").repeat(same.len());
        }
    }
}

fn put_case(out: &mut String, case: &Case) {
    let shown = |word: &String| if word.is_empty() { "''".into() } else { escaped(word.as_bytes()).replace(' ', "\\x20") };
    let _ = writeln!(out, "\ncase {}", case.name);
    let _ = writeln!(out, "run {}", case.words.iter().map(shown).collect::<Vec<_>>().join(" "));
    *out += &case.folders.iter().map(|name| format!("folder {name}\n")).collect::<String>();
    case.files.iter().for_each(|(name, bytes)| put_part(out, &format!("file {name}"), bytes));
    let parts = [("in", Some(&case.stdin)), ("out", Some(&case.out)), ("err", case.err.as_ref())];
    for (what, bytes) in parts.into_iter().filter_map(|(what, bytes)| bytes.filter(|bytes| !bytes.is_empty()).map(|bytes| (what, bytes))) {
        put_part(out, what, bytes);
    }
    case.made.iter().for_each(|(name, bytes)| put_part(out, &format!("made {name}"), bytes));
    if case.status != 0 {
        let _ = writeln!(out, "status {}", case.status);
    }
}

/// The text of cases, behind the remarks that it begins with.
pub fn print(remarks: &str, given: &[(String, Vec<u8>)], all: &[Case]) -> String {
    let mut out = remarks.to_string();
    given.iter().for_each(|(name, bytes)| put_part(&mut out, &format!("given {name}"), bytes));
    all.iter().for_each(|case| put_case(&mut out, case));
    out
}
