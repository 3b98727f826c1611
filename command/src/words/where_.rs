//! `where N`: the address of statement N, from the statements before it alone (C-17).

use crate::answer::{Answer, Stop};
use crate::call::Call;
use crate::diagnose;
use crate::diagnose::frames::{feeds, is_marked};
use crate::files;
use border::where_sits;

pub fn run(call: &Call) -> Result<Answer, Stop> {
    let input = files::input(call)?;
    Ok(match where_sits(&input.bytes, call.number()) {
        Ok(address) => Answer::good(format!("{address:06X}\n")).saying(input.warning()),
        Err(refusal) => {
            let mut said = diagnose::of_listing(&input.name, refusal, &input.bytes);
            if refusal.number == 14 {
                let statements = feeds(&input.bytes).saturating_sub(usize::from(is_marked(&input.bytes)));
                let s = if statements == 1 { "" } else { "s" };
                said += &format!("  the listing has {statements} statement{s}\n");
            }
            Answer::refused(refusal, said)
        }
    })
}
