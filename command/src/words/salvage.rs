//! `salvage [--report FILE]`: what can be kept of a damaged listing (C-22), and what was done, in words.

use crate::answer::{Answer, Stop};
use crate::call::Call;
use crate::diagnose::{self, frames::is_marked};
use crate::files::{self, Input};
use border::lines::{self, Salvage};
use border::owned;
use std::ffi::OsStr;
use std::fs;

pub fn run(call: &Call) -> Result<Answer, Stop> {
    let report = call.value("--report");
    if let Some(report) = report {
        check_report(call, report)?;
    }
    if let (Some(output), false) = (&call.output, call.has("--force")) {
        if is_text(call, output) {
            return Err(Stop::Misuse(format!("{} is the text: --force salvages it in its place", output.to_string_lossy())));
        }
    }
    let input = files::input(call)?;
    let saved = owned::salvage(&input.bytes);
    let said = wording(&input, saved.statements, &saved.report);
    let beside = report.map(|report| (report.to_owned(), saved.report));
    Ok(Answer { beside, ..Answer::good(saved.listing).saying(said) })
}

/// The report has a file of its own: not the one that the listing goes to, nor the text. What goes to /dev/null is not wanted.
fn check_report(call: &Call, report: &OsStr) -> Result<(), Stop> {
    if files::same(report, "/dev/null".as_ref()) {
        return Ok(());
    }
    if report == "-" || files::same(report, call.out()) {
        return Err(Stop::Misuse(format!("{} is where the listing goes: --report needs another file", report.to_string_lossy())));
    }
    if is_text(call, report) {
        return Err(Stop::Misuse(format!("{} is the text: --report needs another file", report.to_string_lossy())));
    }
    Ok(())
}

/// Whether a file is the text, which may be on standard input.
fn is_text(call: &Call, file: &OsStr) -> bool {
    let text = call.file(0).filter(|text| *text != "-").unwrap_or("/dev/stdin".as_ref());
    fs::metadata(file).is_ok_and(|found| found.is_file()) && files::same(text, file)
}

/// Each line that was replaced and why, from where on lines are left off, and how many.
fn wording(input: &Input, statements: usize, report: &[u8]) -> String {
    let (name, marked) = (&input.name, is_marked(&input.bytes));
    let lines: Vec<&[u8]> = input.bytes.split_inclusive(|c| *c == b'\n').skip(usize::from(marked)).collect();
    let first = if marked { 2 } else { 1 };
    let mut said = String::new();
    let mut ends = lines.iter().filter(|line| line.ends_with(b"\n")).peekable();
    if ends.peek().is_some() && ends.all(|line| line.ends_with(b"\r\n")) {
        said += &format!("{name}: warning: its lines end with a carriage return and a line feed, and a line feed alone ends a line\n");
    }
    let report: Vec<Salvage> = lines::all(report).unwrap_or_default();
    let mut replaced = 0;
    for told in report {
        match told {
            Salvage::Replaced { number, place } => {
                let line = lines.get(usize::from(place)).copied().unwrap_or(b"");
                let (cause, column) = why(line, number, marked);
                said += &format!("{name}:{}:{}: warning: {number}, {cause}\n", usize::from(place) + first, column.unwrap_or(0) + 1);
                replaced += 1;
            }
            Salvage::LeftOff { place } => {
                said += &format!(
                    "{name}:{}:1: warning: left off from here on: {} are the most\n",
                    usize::from(place) + first,
                    most(place, marked)
                );
            }
        }
    }
    let left = lines.len().saturating_sub(statements);
    said + &format!("kept {}, replaced {replaced}, left off {left}\n", statements.saturating_sub(replaced))
}

fn why(line: &[u8], number: u8, marked: bool) -> diagnose::Reason {
    let frame = line.strip_suffix(b"\n").unwrap_or(line);
    match number {
        2 => diagnose::own_limit(frame, marked),
        _ => diagnose::breach(frame, line.ends_with(b"\n"), marked),
    }
}

/// The limit from which on lines are left off.
fn most(place: u16, marked: bool) -> &'static str {
    match (place, marked) {
        (1024, _) => "1,024 statements",
        (_, true) => "57,344 characters in all",
        (_, false) => "49,152 characters in all",
    }
}
