//! `steps`: the rewrites of a run, one line each.

use crate::answer::{self, Answer, Stop};
use crate::call::Call;
use border::owned;

pub fn run(call: &Call) -> Result<Answer, Stop> {
    answer::of_listing(call, |input| owned::steps(call.settings(), &input.bytes).map(Answer::good))
}
