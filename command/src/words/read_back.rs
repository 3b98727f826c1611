//! `read-back START`: the listing of an image, from an address on (C-21).

use crate::answer::{Answer, Stop};
use crate::call::Call;
use crate::files;
use border::owned;

pub fn run(call: &Call) -> Result<Answer, Stop> {
    let input = files::input(call)?;
    Ok(match owned::read_back(&input.bytes, call.number()) {
        Ok(listing) => Answer::good(listing),
        Err(refusal) => {
            // What is refused is the image, or a listing that nobody has: no line is told, and no statement.
            let mut said = format!("{}: error: refused {}: {}\n", input.name, refusal.number, refusal.sentence());
            if refusal.number == 2 {
                said += "  65,536 bytes are allowed, and 1,024 statements of its listing\n";
            }
            Answer::refused(refusal, said + &format!("  the image has {} bytes\n", input.bytes.len()))
        }
    })
}
