//! `image [--hex]`: the image of a listing as it stands; `--hex` writes rows of an address and sixteen digit pairs.

use crate::answer::{self, Answer, Stop};
use crate::call::Call;
use border::owned;
use std::fmt::Write;

pub fn run(call: &Call) -> Result<Answer, Stop> {
    answer::of_listing(call, |input| {
        let image = owned::assemble(&input.bytes)?;
        Ok(if call.has("--hex") { Answer::good(rows(&image)) } else { Answer::good(image) })
    })
}

/// All rows, and the address behind the last byte. Of a run of equal rows the first is written, and one `*` for the others.
fn rows(image: &[u8]) -> String {
    let mut out = String::new();
    let (mut before, mut starred): (&[u8], bool) = (&[], false);
    for (k, row) in image.chunks(16).enumerate() {
        let again = row == before;
        if !again {
            let _ = write!(out, "{:06X}:", 16 * k);
            out += &row.iter().map(|byte| format!(" {byte:02X}")).collect::<String>();
            out += "\n";
        } else if !starred {
            out += "*\n";
        }
        (before, starred) = (row, again);
    }
    let _ = writeln!(out, "{:06X}:", image.len());
    out
}
