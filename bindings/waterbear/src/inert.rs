//! Of which statements the rewriting asks no more than the size (levels Skeleton and Bare). Argued, not proved.
//!
//! Skeleton: a statement that holds no label, defines no name, is no transfer and no Not1 is looked at in three ways only. It has a size,
//! it is significant, so that nothing folds across it, and its bytes own numbers; a pad of multiple 1 has the same size, is significant,
//! and owns its bytes. It assembles in the input, and its operands are constants, so that no candidate can fail at it.
//!
//! Bare: a branch to a label of its own segment only comes nearer to it, and one that is no piece of a fold is never replaced; operands
//! that are upper or lower bytes of sums of labels stay in range. Where a label that nothing names goes, so does its context: local names
//! get a number for each context.
use crate::levels::Level;
use crate::program::{is_local, Argument, Expr, Item, Program, Statement, What};
use crate::shape::Shape;
use crate::tables::{is_branch, BR, NOT1};
use crate::values::Values;

pub struct Inert<'p> {
    pub values: &'p Values<'p>,
    pub shape: &'p Shape,
    pub level: Level,
}

impl Inert<'_> {
    /// A sum of global labels and small constants: it has a value in every layout (a line of source has no 2,000 terms).
    fn is_steady(&self, expr: &Expr) -> bool {
        if !self.values.holds(expr) {
            return self.values.constant(expr).is_some_and(|value| value.unsigned_abs() < 1 << 20);
        }
        match expr {
            Expr::Name(name) => !is_local(name) && !self.values.is_variable(name),
            Expr::Two(crate::tables::PLUS | crate::tables::MINUS, l, r) => self.is_steady(l) && self.is_steady(r),
            _ => false,
        }
    }

    /// Whether a value stays in its range whatever moves.
    fn is_safe(&self, expr: &Expr, words: bool) -> bool {
        if !self.values.holds(expr) {
            return true;
        }
        match expr {
            _ if self.level < Level::Bare => false,
            Expr::One(crate::tables::UPPER_BYTE | crate::tables::LOWER_BYTE, e) => self.is_steady(e),
            Expr::Name(_) => words && self.shape.short && self.is_steady(expr),
            _ => false,
        }
    }

    /// A branch to a label of its own segment never comes to be too long.
    fn is_near(&self, place: usize, form: u8, target: &Expr) -> bool {
        let Expr::Name(name) = target else { return false };
        let asked = self.level == Level::Bare && (form == BR || is_branch(form)) && !self.shape.pieces[place];
        let label = if asked { self.shape.label(place, name) } else { None };
        label.is_some_and(|at| self.shape.segments[at] == self.shape.segments[place] && !self.shape.pieces[at])
    }

    pub fn is(&self, place: usize, statement: &Statement) -> bool {
        let safe_items = |items: &[Item], words| items.iter().all(|item| !matches!(item, Item::Value(e) if !self.is_safe(e, words)));
        match &statement.what {
            _ if self.level < Level::Skeleton => false,
            What::Instruction(NOT1, _) => false,
            What::Instruction(form, arguments) => {
                let target = statement.target();
                let others = &arguments[..arguments.len() - target.iter().count()];
                let safe = others.iter().all(|argument| !matches!(argument, Argument::Value(e) if !self.is_safe(e, false)));
                safe && target.map_or(true, |target| self.is_near(place, *form, target))
            }
            What::Bytes(items) => safe_items(items, false),
            What::Words(items) => safe_items(items, true),
            _ => false,
        }
    }

    /// The labels that statements with frames name.
    pub fn needed(&self, program: &Program) -> Vec<bool> {
        let mut needed = vec![false; program.statements.len()];
        for (place, statement) in program.statements.iter().enumerate().filter(|(place, s)| !self.is(*place, s)) {
            for expr in statement.values() {
                expr.any_name(&mut |name| {
                    self.shape.label(place, name).into_iter().for_each(|label| needed[label] = true);
                    false
                });
            }
        }
        needed
    }
}
