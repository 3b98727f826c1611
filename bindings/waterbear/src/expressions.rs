//! Expressions as bytes of a frame.
use crate::levels::Level;
use crate::program::Expr;
use crate::tables::{EXPRESSION, NAME, NUMBER};
use crate::writer::Writer;
use crate::Stopped;

pub fn number(out: &mut Vec<u8>, value: i32) {
    out.push(NUMBER);
    out.extend(value.to_be_bytes());
}

impl Writer<'_> {
    /// As written; or by its value, wherever a part that holds no label has an operator and `folded` says so.
    fn spelled(&mut self, place: usize, out: &mut Vec<u8>, expr: &Expr, folded: bool) {
        let plain = matches!(expr, Expr::Number(_) | Expr::Name(_));
        let constant = if folded { self.values.constant(expr) } else { None };
        match (constant, expr) {
            (Some(value), _) if !plain || self.options.level >= Level::Skeleton => number(out, value),
            (_, Expr::Number(value)) => number(out, *value),
            (_, Expr::Name(name)) => {
                out.push(NAME);
                out.extend(self.named(place, name).to_be_bytes());
            }
            (_, Expr::One(operator, e)) => {
                out.push(*operator);
                self.spelled(place, out, e, folded);
            }
            (_, Expr::Two(operator, l, r)) => {
                out.push(*operator);
                self.spelled(place, out, l, folded);
                self.spelled(place, out, r, folded);
            }
        }
    }

    /// With constants as numbers, where they are longer than a number or have no frames.
    pub(crate) fn shorter(&mut self, place: usize, out: &mut Vec<u8>, expr: &Expr) {
        self.spelled(place, out, expr, true);
    }

    /// None if it passes the limit.
    pub(crate) fn fitting(&mut self, place: usize, expr: &Expr) -> (Vec<u8>, bool) {
        let mut out = vec![];
        self.spelled(place, &mut out, expr, self.options.level > Level::Whole);
        if out.len() > EXPRESSION {
            out.clear();
            self.shorter(place, &mut out, expr);
        }
        let fits = out.len() <= EXPRESSION;
        (out, fits)
    }

    pub(crate) fn expression(&mut self, place: usize, expr: &Expr) -> Result<Vec<u8>, Stopped> {
        match self.fitting(place, expr) {
            (out, true) => Ok(out),
            (out, false) => Err(self.stop(
                place,
                format!("an expression takes {} bytes, at most {EXPRESSION} are allowed; give a part of it a name", out.len()),
            )),
        }
    }
}
