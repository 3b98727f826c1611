//! `page`: the run to look at, one HTML file.

use super::targets::marked;
use crate::answer::{Answer, Stop};
use crate::call::Call;
use crate::diagnose;
use crate::files;
use crate::page::{page, Run};
use border::owned;

pub fn run(call: &Call) -> Result<Answer, Stop> {
    let input = files::input(call)?;
    let settings = call.settings();
    if let Err(refusal) = owned::optimize_jumps(settings, &input.bytes) {
        return Ok(Answer::refused(refusal, diagnose::of_listing(&input.name, refusal, &input.bytes)));
    }
    let limit = "the new listing with its comments passes the total limit, so that its text cannot be shown: the page could not be made";
    let run = Run::of(settings, &input.bytes).map_err(|_| Stop::Trouble(limit.into()))?;
    let name = input.name.rsplit('/').next().unwrap_or(&input.name);
    Ok(Answer::good(page(&run, name)).saying(marked(&input.name, settings, &input.bytes)).saying(input.warning()))
}
