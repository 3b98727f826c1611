//! Refusals 3 and 4: where a name is defined, or why the definition is not seen.

use super::frames::*;
use super::Reason;

/// The lines of a text that define a name: the line, and the name.
fn definitions(text: &[u8], marked: bool) -> Vec<(usize, u16)> {
    let lines = text.split(|c| *c == b'\n').enumerate();
    lines.filter(|(_, line)| matches!(byte_at(line, 0), 2 | 3)).map(|(k, line)| (k, pair_at(line, behind_kind(marked)))).collect()
}

/// The lines that open a context: global labels.
fn openings(text: &[u8], marked: bool) -> Vec<usize> {
    let lines = text.split(|c| *c == b'\n').enumerate();
    lines.filter(|(_, line)| byte_at(line, 0) == 2 && pair_at(line, behind_kind(marked)) < 0x8000).map(|(k, _)| k).collect()
}

/// The line of the definition of a name that the statement of a line sees: a local one in its context, a variable's names only above it.
fn seen_definition(text: &[u8], marked: bool, at: usize, name: u16, only_above: bool) -> Option<usize> {
    let (mut from, mut to) = (0, usize::MAX);
    if name >= 0x8000 {
        let openings = openings(text, marked);
        from = openings.iter().rev().find(|k| **k <= at).copied().unwrap_or(0);
        to = openings.iter().find(|k| **k > at).copied().unwrap_or(usize::MAX);
    }
    if only_above {
        to = at;
    }
    definitions(text, marked).into_iter().find(|(k, defined)| *defined == name && (from..to).contains(k)).map(|(k, _)| k)
}

/// 0001 (g00001), 8001 (.l00001).
fn name_of(name: u16) -> String {
    let local = name >= 0x8000;
    format!("the name {name:04X} ({}{:05})", if local { ".l" } else { "g" }, name & 0x7FFF)
}

pub fn again(text: &[u8], marked: bool, at: usize, line: &[u8]) -> Reason {
    let b = behind_kind(marked);
    let name = pair_at(line, b);
    let first = seen_definition(text, marked, at, name, true).map_or("another line".into(), |k| format!("line {}", k + 1));
    (format!("{} was first defined in {first}", name_of(name)), Some(b))
}

pub fn missing(text: &[u8], marked: bool, at: usize, line: &[u8]) -> Reason {
    let is_variable = byte_at(line, 0) == 3;
    let nodes = expressions(line, marked).into_iter().flat_map(|start| expression(line, start).0);
    let mut names = nodes.filter(|node| byte_at(line, *node) == 1).map(|node| (node, pair_at(line, node + 2)));
    let Some((column, name)) = names.find(|(_, name)| seen_definition(text, marked, at, *name, is_variable).is_none()) else {
        return (String::new(), None);
    };
    let where_else = match definitions(text, marked).into_iter().find(|(_, defined)| *defined == name) {
        None => "is defined nowhere".into(),
        Some((k, _)) if is_variable => format!("is defined in line {}; a variable sees only what stands above it", k + 1),
        Some((k, _)) => format!("is defined in line {}, in another context", k + 1),
    };
    (format!("{} {where_else}", name_of(name)), Some(column))
}
