//! `read`: the listing of a text for people (C-19).

use crate::answer::{Answer, Stop};
use crate::call::Call;
use crate::diagnose;
use crate::files;
use border::owned;

pub fn run(call: &Call) -> Result<Answer, Stop> {
    let input = files::input(call)?;
    Ok(match owned::read(&input.bytes) {
        Ok(listing) => Answer::good(listing).saying(input.warning()),
        Err(refusal) => Answer::refused(refusal, diagnose::of_text(&input, refusal)),
    })
}
