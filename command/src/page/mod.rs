//! The page of a run: one HTML file with a listing before and after, side by side. Nothing is worked out here that a word says: only the
//! walk of a listing in C-23's fragment is walked here. Lines are counted from 1 and statements from 0, as on standard error.

mod arrows; // from each transfer to what it names
mod run; // what is shown
mod table; // the statements
mod walks; // which Nops a walk meets

pub use run::Run;

use arrows::{drawing, Arrow};
use border::lines::{Named, Target};
use border::Origin;
use std::collections::BTreeSet;

const STYLE: &str = include_str!("style.css");

fn escape(text: &str) -> String {
    text.replace('&', "&amp;").replace('<', "&lt;").replace('>', "&gt;").replace('"', "&quot;").replace('\'', "&#x27;")
}

/// An arrow to the statement that has the byte, if one has.
fn arrow(from: u16, named: &Named, marked: bool) -> Option<Arrow> {
    named.origin.map(|origin| Arrow { from: from.into(), to: origin.statement, marked })
}

fn arrows_before(run: &Run) -> Vec<Arrow> {
    let marked: BTreeSet<u16> = run.marked().map(|target| target.carried).collect();
    run.written.iter().filter_map(|t| arrow(t.place, &t.before, marked.contains(&t.place))).collect()
}

fn arrows_after(run: &Run) -> Vec<Arrow> {
    run.targets.iter().filter_map(|t| arrow(t.place, &t.after, t.marked)).collect()
}

fn place_of(run: &Run, place: usize) -> String {
    format!("line {}, statement {place}", run.line(place))
}

fn named(run: &Run, named: &Named) -> String {
    match named.origin {
        None => format!("address {}, where no statement has a byte", named.value),
        Some(Origin { statement, offset }) => format!("byte {offset} of {}", place_of(run, statement)),
    }
}

/// What still needs eyes: each marked target in words.
fn eyes(run: &Run) -> String {
    let beside = "Numbers in data and in other operands stay as written and are not looked at.";
    let item = |target: &Target| {
        let (before, after) = (named(run, &target.before), named(run, &target.after));
        let other = if run.change_jumps.contains(&usize::from(target.place)) {
            " It is a change jump: its number is in another memory."
        } else {
            ""
        };
        let at = place_of(run, target.place.into());
        format!("<li class=\"bad\">The transfer at {at} named {before}, and names {after} now.{other}</li>")
    };
    let items: String = run.marked().map(item).collect();
    if items.is_empty() {
        return format!("<p>Every transfer names the byte of the statement that it named before: no transfer needs eyes. {beside}</p>");
    }
    format!("<p>These name another byte than before, or none; whether that is meant only their writer knows. {beside}</p><ul>{items}</ul>")
}

/// What is left as it was though it could be shorter, and why.
fn staying(run: &Run) -> String {
    if run.stays.is_empty() {
        return String::new();
    }
    let item = |(place, why): &(usize, String)| format!("<li><code>{}</code></li>", escape(&format!("{}: {why}", place_of(run, *place))));
    let items: String = run.stays.iter().map(item).collect();
    format!("<h2>What stays, and why</h2><ul>{items}</ul>")
}

/// The walks of C-23, where the listing is in its fragment.
fn walked(run: &Run) -> String {
    let Some(rows) = walks::walks(&run.long, &run.short, &run.stems) else { return String::new() };
    let cells = |row: [String; 4]| row.map(|text| format!("<td>{}</td>", escape(&text))).concat();
    let shown: String = rows.into_iter().map(|row| format!("<tr>{}</tr>", cells(row))).collect();
    format!(
        "<h2>The walk</h2><p>The listing is in the fragment whose walk is proved to be the same: from the statement at address 0, with the \
         accumulator's tests taken from a list (0: zero, 1: not), these Nops are met, by their statements.</p><table class=\"walk\"><tr>\
         <th>tests</th><th>long</th><th>short</th><th>the walk</th></tr>{shown}</table>"
    )
}

pub fn page(run: &Run, name: &str) -> String {
    let count = run.long.len();
    let figures = [
        ("statements", format!("{count}, {} now", run.short.len())),
        ("bytes of image", format!("{}, {} now", run.before, run.after)),
        ("rewrites", run.rewrites.to_string()),
        ("targets to look at", format!("{} of {}", run.marked().count(), run.targets.len())),
    ];
    let total: String = figures.iter().map(|(what, value)| format!("<div><b>{value}</b>{what}</div>")).collect();
    let body = drawing(&arrows_before(run), count, true) + &table::table(run) + &drawing(&arrows_after(run), count, false);
    let (name, eyes, staying, walked) = (escape(name), eyes(run), staying(run), walked(run));
    format!(
        "<!DOCTYPE html>\n<html lang=\"en\"><head><meta charset=\"utf-8\"><title>{name}</title><style>{STYLE}</style></head><body>\n\
         <h1>{name}, long and short</h1>\n<div class=\"sum\">{total}</div>\n<div class=\"run\">{body}</div>\n\
         <h2>What needs eyes</h2>{eyes}\n{staying}\n{walked}\n\
         <footer>Made by mortarbee page from what its words print. Lines are counted from 1, statements from 0. An arrow goes from \
         a transfer to the byte that it names. Red: a target that names another byte than before, or none; on the left what it \
         named, on the right what it names.</footer>\n</body></html>\n"
    )
}
