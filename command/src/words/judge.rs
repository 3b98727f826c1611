//! `judge`: whether a listing assembles as it stands.

use crate::answer::{self, Answer, Stop};
use crate::call::Call;
use border::{check, owned};

pub fn run(call: &Call) -> Result<Answer, Stop> {
    answer::of_listing(call, |input| {
        let image = owned::assemble(&input.bytes)?;
        Ok(Answer::good(format!("good {} {}\n", check(&input.bytes)?, image.len())))
    })
}
