//! Refusal 7: which operator of a statement has no value. An expression is tried by itself in the statement's place: the listing with it
//! there, and nothing else changed, is assembled.

use super::frames::{behind_kind, byte_at, expression_end, expressions, line_at, line_of, node_operands};
use border::{owned, where_sits};

/// The address of a statement; 65,536 where it has none.
pub fn address(text: &[u8], place: usize) -> usize {
    where_sits(text, place).unwrap_or(65_536)
}

/// A statement with one expression in it: a variable keeps its name, anything else becomes data of as many bytes, so that every address
/// stays.
fn probe(line: &[u8], marked: bool, size: usize, expression: &[u8]) -> Vec<u8> {
    let b = behind_kind(marked);
    let kind = byte_at(line, 0);
    if kind == 3 {
        return [&line[..b + 4], expression].concat();
    }
    let (kind, items) = if kind == 7 { ("07", size / 2) } else { ("06", size) };
    let count = format!("{:02X}", items.min(16));
    let zeros = "0000000000".repeat(if items <= 16 { items.saturating_sub(1) } else { 0 });
    [kind.as_bytes(), &line[2..b], count.as_bytes(), expression, zeros.as_bytes()].concat()
}

/// Whether the expression at a character has no value.
fn has_none(text: &[u8], marked: bool, place: usize, at: usize) -> bool {
    let (line, start, _) = line_at(text, line_of(place, marked));
    let Ok(end) = expression_end(line, at) else { return false };
    let size = address(text, place + 1).saturating_sub(address(text, place));
    let tried = [&text[..start], &probe(line, marked, size, &line[at..end]), &text[start + line.len()..]].concat();
    matches!(owned::assemble(&tried), Err(refusal) if refusal.number == 7 && refusal.place == place)
}

/// The character at which the operator stands that has no value, and whose operands have one.
pub fn node_at_fault(text: &[u8], marked: bool, place: usize) -> Option<usize> {
    let (line, _, _) = line_at(text, line_of(place, marked));
    let mut at = expressions(line, marked).into_iter().find(|start| has_none(text, marked, place, *start))?;
    loop {
        let operands = node_operands(byte_at(line, at));
        let left = at + 2;
        if operands > 0 && has_none(text, marked, place, left) {
            at = left;
            continue;
        }
        match expression_end(line, left) {
            Ok(right) if operands == 2 && has_none(text, marked, place, right) => at = right,
            _ => return Some(at),
        }
    }
}
