//! The statements of a run as one table: long on the left, what was done, short on the right.

use super::escape;
use super::run::Run;
use crate::diagnose::frames::byte_at;
use crate::words::text::Row;
use border::lines::Rule;
use std::collections::{BTreeMap, BTreeSet};

const HEAD: &str = "<table><tr><th>line</th><th>statement</th><th>at</th><th>bytes</th><th>long</th><th>what was done</th>\
                    <th>at</th><th>bytes</th><th>short</th></tr>";

fn rule_name(rule: Rule) -> &'static str {
    match rule {
        Rule::Inverted => "inverted fold",
        Rule::Trampoline => "trampoline fold",
        Rule::Shrink => "shrink",
    }
}

/// The class of a row and what its middle says.
fn told(done: Option<&Vec<(usize, Rule)>>, gone: bool) -> (String, String) {
    match done.and_then(|done| done.last().map(|last| (done, last))) {
        _ if gone => ("gone".into(), "dropped by a fold".into()),
        None => (String::new(), String::new()),
        Some((done, last)) => {
            let words: Vec<String> = done.iter().map(|(number, rule)| format!("{number}: {}", rule_name(*rule))).collect();
            (if last.1 == Rule::Shrink { "shrink" } else { "fold" }.into(), words.join(", "))
        }
    }
}

fn cell(kind: &str, text: &str) -> String {
    format!("<td class=\"{kind}\">{}</td>", escape(text))
}

/// Address, bytes and text of a statement; a long run of bytes is cut.
fn side(row: Option<&Row>, kind: &str) -> String {
    let Some(row) = row else { return "<td></td><td></td><td></td>".into() };
    let pairs: Vec<String> = row.data.iter().take(4).map(|byte| format!("{byte:02X}")).collect();
    let more = if row.data.len() > 4 { format!(" +{}", row.data.len() - 4) } else { String::new() };
    let label = if row.text.ends_with(':') { " label" } else { "" };
    let at = cell("at", &format!("{:04X}", row.address));
    at + &cell("bytes", &(pairs.join(" ") + &more)) + &cell(&format!("{kind}{label}"), &comment_of(&row.text))
}

/// A comment in letters where its bytes are such.
fn comment_of(text: &str) -> String {
    let Some(digits) = text.strip_prefix(".comment ") else { return text.into() };
    let bytes: Vec<u8> = (0..digits.len() / 2).map(|k| byte_at(digits.as_bytes(), 2 * k)).collect();
    if bytes.iter().all(|byte| (32..127).contains(byte)) {
        format!("; {}", String::from_utf8_lossy(&bytes))
    } else {
        text.into()
    }
}

pub fn table(run: &Run) -> String {
    let mut lines = vec![String::from(HEAD)];
    let became: BTreeMap<usize, usize> = run.stems.iter().enumerate().map(|(k, stem)| (usize::from(*stem), k)).collect();
    let marked: BTreeSet<usize> = run.marked().map(|target| target.place.into()).collect();
    for (i, row) in run.long.iter().enumerate() {
        let new = became.get(&i).and_then(|k| run.short.get(*k));
        let (mut kind, mut words) = told(run.done.get(&i), new.is_none());
        let aim = if marked.contains(&i) { "short aim" } else { "short" };
        if run.change_jumps.contains(&i) {
            words = "change jump: its number is in another memory".into();
        } else if marked.contains(&i) {
            kind += " bad";
            words += if words.is_empty() { "look here" } else { "; look here" };
        }
        let numbers = cell("at", &run.line(i).to_string()) + &cell("no", &i.to_string());
        let rule = cell("rule", &words);
        lines.push(format!("<tr class=\"{kind}\">{numbers}{}{rule}{}</tr>", side(Some(row), "long"), side(new, aim)));
    }
    lines.join("\n") + "</table>"
}
