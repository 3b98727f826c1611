//! `map`: where each instruction and each piece of data stands in the long image and in the short one, one line each.

use crate::answer::{self, Answer, Stop};
use crate::call::Call;
use border::owned;

pub fn run(call: &Call) -> Result<Answer, Stop> {
    answer::of_listing(call, |input| owned::map(call.settings(), &input.bytes).map(Answer::good))
}
