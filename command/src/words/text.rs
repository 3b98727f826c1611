//! `text [--addresses]`: a listing for people (C-16), and the same with each statement's address and bytes in front.

use crate::answer::{self, Answer, Stop};
use crate::call::Call;
use border::{owned, positions, Refusal};
use std::io::Write;

pub fn run(call: &Call) -> Result<Answer, Stop> {
    let told = if call.has("--addresses") { addressed } else { owned::text };
    answer::of_listing(call, |input| told(&input.bytes).map(Answer::good))
}

/// A statement: its address, its bytes, and its line.
pub struct Row {
    pub address: usize,
    pub data: Vec<u8>,
    pub text: String,
}

/// The statements of a listing that assembles.
pub fn rows(listing: &[u8]) -> Result<Vec<Row>, Refusal> {
    let image = owned::assemble(listing)?;
    let text = owned::text(listing)?;
    let positions = positions(listing)?;
    let row = |(line, ends): (&str, &[usize])| {
        // An `.org` has no bytes, whatever it skips.
        let data = if line.starts_with(".o") { &[][..] } else { image.get(ends[0]..ends[1]).unwrap_or(&[]) };
        Row { address: ends[0], data: data.to_vec(), text: line.into() }
    };
    Ok(String::from_utf8_lossy(&text).lines().zip(positions.windows(2)).map(row).collect())
}

/// The columns of objdump: a statement's address, its bytes, four to a line, and its text in the first one.
fn addressed(listing: &[u8]) -> Result<Vec<u8>, Refusal> {
    let mut out = vec![];
    for row in rows(listing)? {
        put_front(&mut out, row.address, &row.data);
        let _ = writeln!(out, "\t{}", row.text);
        for (k, data) in row.data.chunks(4).enumerate().skip(1) {
            put_front(&mut out, row.address + 4 * k, data);
            out.push(b'\n');
        }
    }
    Ok(out)
}

/// The address, and four bytes or as much room.
fn put_front(out: &mut Vec<u8>, address: usize, data: &[u8]) {
    let _ = write!(out, "{address:06X}:\t");
    for k in 0..4 {
        let _ = match data.get(k) {
            Some(byte) => write!(out, "{byte:02X} "),
            None => write!(out, "   "),
        };
    }
}
