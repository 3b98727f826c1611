//! `targets`: what each transfer of the new listing names, one line each; and what `optimize` and `page` say of those that need eyes.

use crate::answer::{self, Answer, Stop};
use crate::call::Call;
use border::{owned, Settings, Targets};

pub fn run(call: &Call) -> Result<Answer, Stop> {
    answer::of_listing(call, |input| {
        let (lines, told) = owned::targets(call.settings(), &input.bytes)?;
        Ok(Answer::good(lines).saying(warning(&input.name, told, "the lines 7401")))
    })
}

/// What still needs eyes after a run.
pub fn marked(name: &str, settings: Settings, listing: &[u8]) -> String {
    let told = owned::targets(settings, listing).map(|(_, told)| told);
    told.map_or(String::new(), |told| warning(name, told, "mortarbee targets, with the same options, says which"))
}

fn warning(name: &str, told: Targets, which: &str) -> String {
    match told.marked {
        0 => String::new(),
        n => format!("{name}: warning: {n} of {} targets name another byte than before, or none: {which}\n", told.transfers),
    }
}
