//! `stems`: the place that each statement of the new listing stems from (C-13).

use crate::answer::{self, Answer, Stop};
use crate::call::Call;
use border::owned;

pub fn run(call: &Call) -> Result<Answer, Stop> {
    answer::of_listing(call, |input| {
        let (_, stems) = owned::optimize_stems(call.settings(), &input.bytes)?;
        Ok(Answer::good(list(&stems)))
    })
}

/// Four digits a line.
pub fn list(stems: &[u16]) -> String {
    stems.iter().map(|stem| format!("{stem:04X}\n")).collect()
}
