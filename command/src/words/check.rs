//! `check`: whether a text keeps the form of a listing (1 and 2), and how many statements it has.

use crate::answer::{self, Answer, Stop};
use crate::call::Call;
use border::check;

pub fn run(call: &Call) -> Result<Answer, Stop> {
    answer::of_listing(call, |input| Ok(Answer::good(format!("good {}\n", check(&input.bytes)?))))
}
