//! A drop-in for waterbear's src/optimize.rs: the same function, over Mortarbee's proved optimizer (crate mortarbee-waterbear). waterbear
//! assembles what goes in and what comes back, and each byte is held against Mortarbee's images; a difference is an error, never an image.
mod instr;
mod statements;

use crate::asm::{AssemblyError, assemble};
use crate::ast::{Directive, Statement, Statements};
use crate::expression::{Expr, IndirectionMode};
use crate::instruction::Instr;
use crate::location::{Positioned, Span};
use mortarbee_waterbear::{Fate, Outcome, Stopped, Target, internal, rewrite};
use statements::{Part, program, size};

type Instruction = Instr<Expr, IndirectionMode>;

/// So often is a run repeated where a `.cnop` of a multiple over 256 comes to lie lower.
const ROUNDS: usize = 16;

pub(crate) fn optimize_jumps(statements: &Statements) -> Result<Statements, AssemblyError> {
    assemble(statements, false)?;
    let mut current = statements.with_statements(statements.as_slice().to_vec());
    let mut round = 0;
    loop {
        let outcome = rewrite(&program(&current)?, round == 0).map_err(|stopped| error(&current, stopped))?;
        held(&current, &current, &outcome.inert, &outcome.before)?;
        let pinned = rewritten(&current, &outcome, true)?;
        let image = held(&current, &pinned, &left(&outcome), &outcome.image)?;
        if outcome.pins.is_empty() {
            return Ok(pinned);
        }
        // Mortarbee has such a `.cnop` as an org. Left free it stays there, or lies lower and leaves room for another run; where that
        // does not assemble, or a number would go stale, the org stands.
        let free = rewritten(&current, &outcome, false)?;
        match assemble(&free, false) {
            Ok(output) if output.bytes == image => return Ok(free),
            Ok(_) if !outcome.numbers_behind_pins && round < ROUNDS => current = free,
            _ => return Ok(pinned),
        }
        round += 1;
    }
}

/// waterbear's AssemblyError has no case of our own; this one prints its text and shows the source line, and nothing else.
fn error(statements: &Statements, stopped: Stopped) -> AssemblyError {
    let statement = stopped.statement.and_then(|place| statements.as_slice().get(place));
    let span = statement.map(|s| s.span()).unwrap_or_else(Span::default);
    AssemblyError::DivideByZero(span, format!("Mortarbee cannot optimize this program: {}", stopped.text))
}

/// The target of a transfer, its last argument.
fn target_of(statement: &Statement) -> Option<Expr> {
    match statement {
        Statement::Instr(_, instruction) => match instr::parts(instruction).1.pop() {
            Some(Part::E(target)) => Some(target),
            _ => None,
        },
        _ => None,
    }
}

/// The instruction of another form, or the same, with another target, its other arguments kept.
fn became(all: &[Statement], statement: &Statement, form: u8, target: Target) -> Option<Statement> {
    let Statement::Instr(span, instruction) = statement else { return None };
    let (_, mut parts) = instr::parts(instruction);
    let Part::E(written) = parts.pop()? else { return None };
    parts.push(Part::E(match target {
        Target::Of(place) => target_of(&all[place])?,
        Target::Number(value) => Expr::num(value).with_span(written.span()),
    }));
    Some(Statement::Instr(span.clone(), instr::made(form, parts)?))
}

/// The statements that are left, pads that Mortarbee had as orgs as orgs or as they are.
fn rewritten(statements: &Statements, outcome: &Outcome, pinned: bool) -> Result<Statements, AssemblyError> {
    let all = statements.as_slice();
    let mut result = vec![];
    for (place, (statement, fate)) in all.iter().zip(&outcome.fates).enumerate() {
        let pin = outcome.pins.iter().find(|pin| pin.0 == place && pinned);
        match (fate, pin) {
            (Fate::Gone, _) => {}
            (Fate::Kept, Some((_, location))) => result.push(Statement::Directive(Directive::Org(statement.span(), *location))),
            (Fate::Kept, None) => result.push(statement.clone()),
            (Fate::Became { form, target }, _) => {
                let new = became(all, statement, *form, *target);
                result.push(new.ok_or_else(|| error(statements, internal()))?);
            }
        }
    }
    Ok(statements.with_statements(result))
}

/// Of the statements that are left, which are inert.
fn left(outcome: &Outcome) -> Vec<bool> {
    let both = outcome.fates.iter().zip(&outcome.inert);
    both.filter(|(fate, _)| **fate != Fate::Gone).map(|(_, inert)| *inert).collect()
}

/// waterbear's image, if it is Mortarbee's wherever this one has more than sizes; waterbear's may be longer by zeros, behind an org.
fn held(old: &Statements, new: &Statements, inert: &[bool], image: &[u8]) -> Result<Vec<u8>, AssemblyError> {
    let text = "what comes back does not assemble; please report this program";
    let bytes = assemble(new, false).map_err(|_| error(old, Stopped { statement: None, text: text.to_owned() }))?.bytes;
    let mut shown = bytes.clone();
    let mut position = 0;
    for (statement, inert) in new.iter().zip(inert) {
        let next = position + size(statement, position)?;
        if *inert {
            shown[position as usize..next as usize].fill(0);
        }
        position = next;
    }
    if shown.starts_with(image) && shown[image.len()..].iter().all(|b| *b == 0) {
        return Ok(bytes);
    }
    Err(error(old, internal()))
}
