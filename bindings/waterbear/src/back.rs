//! From Mortarbee's answer back to the statements: what became of each, by the stems.
use crate::archive::Answer;
use crate::frames::Frame;
use crate::program::Program;
use crate::tables::{INSTRUCTION, NUMBER};
use crate::values::Values;

/// The target of a replaced instruction.
#[derive(Clone, Copy, Debug, PartialEq)]
pub enum Target {
    /// As it is written in this statement.
    Of(usize),
    Number(i32),
}

#[derive(Clone, Copy, Debug, PartialEq)]
pub enum Fate {
    Kept,
    Gone,
    /// Another form, another target or both; its other arguments are its own.
    Became {
        form: u8,
        target: Target,
    },
}

/// Behind a folded branch stands what the fold dropped, and its last jump has the target.
fn carrier<'f>(frames: &'f [Frame], kept: &[bool], stem: usize) -> &'f Frame {
    let dropped = (stem + 1..frames.len()).take_while(|place| !kept[*place]);
    let jumps = dropped.filter(|place| frames[*place].bytes[0] == INSTRUCTION);
    &frames[jumps.last().unwrap_or(stem)]
}

fn target(program: &Program, values: &Values, bytes: &[u8], carrier: &Frame) -> Option<Target> {
    if *bytes == carrier.bytes[carrier.target..] {
        return Some(Target::Of(carrier.statement));
    }
    let [NUMBER, a, b, c, d] = *bytes else { return None };
    let value = i32::from_be_bytes([a, b, c, d]);
    let written = program.statements[carrier.statement].target()?;
    Some(if values.constant(written) == Some(value) { Target::Of(carrier.statement) } else { Target::Number(value) })
}

/// None if the answer is none that document 01 allows, which `optimized` does not give.
pub fn fates(program: &Program, values: &Values, frames: &[Frame], answer: &Answer) -> Option<Vec<Fate>> {
    if answer.frames.len() != answer.stems.len() {
        return None;
    }
    let mut kept = vec![false; frames.len()];
    for stem in &answer.stems {
        *kept.get_mut(*stem)? = true;
    }
    let mut fates = vec![Fate::Kept; program.statements.len()];
    for (frame, _) in frames.iter().zip(&kept).filter(|(_, kept)| !**kept) {
        fates[frame.statement] = Fate::Gone;
    }
    for (stem, new) in answer.stems.iter().zip(&answer.frames) {
        let old = &frames[*stem];
        if *new == old.bytes {
            continue;
        }
        if old.target == 0 {
            return None;
        }
        let target = target(program, values, new.get(old.target..)?, carrier(frames, &kept, *stem))?;
        fates[old.statement] = Fate::Became { form: new[1], target };
    }
    Some(fates)
}
