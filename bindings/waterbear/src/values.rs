//! What expressions hold and what they are worth in the program as it stands.
use crate::program::{is_local, Expr, Program, What};
use crate::tables::*;
use std::collections::HashMap;

pub struct Values<'p> {
    program: &'p Program,
    /// For each variable whether it holds a label, directly or through variables.
    variables: HashMap<&'p str, bool>,
}

impl<'p> Values<'p> {
    pub fn new(program: &'p Program) -> Values<'p> {
        let mut values = Values { program, variables: HashMap::new() };
        for statement in &program.statements {
            if let What::Variable(name, expr) = &statement.what {
                let holds = values.holds(expr);
                values.variables.insert(name, holds);
            }
        }
        values
    }

    /// Whether an expression holds a label, directly or through variables (C-15). A name that is no variable is a label.
    pub fn holds(&self, expr: &Expr) -> bool {
        expr.any_name(&mut |name| self.variables.get(name).copied().unwrap_or(true))
    }

    pub fn is_variable(&self, name: &str) -> bool {
        self.variables.contains_key(name)
    }

    /// The value under a global label, by the assembler's arithmetic of 32 bits.
    pub fn of(&self, expr: &Expr, context: &str) -> Option<i32> {
        Some(match expr {
            Expr::Number(value) => *value,
            Expr::Name(name) if is_local(name) => *self.program.locals.get(context)?.get(name)?,
            Expr::Name(name) => *self.program.globals.get(name)?,
            Expr::One(operator, e) => one(*operator, self.of(e, context)?)?,
            Expr::Two(operator, l, r) => two(*operator, self.of(l, context)?, self.of(r, context)?)?,
        })
    }

    /// The value of an expression that holds no label.
    pub fn constant(&self, expr: &Expr) -> Option<i32> {
        if self.holds(expr) {
            None
        } else {
            self.of(expr, "")
        }
    }
}

fn one(operator: u8, value: i32) -> Option<i32> {
    match operator {
        UNARY_MINUS => Some(value.wrapping_neg()),
        UPPER_BYTE => Some(value >> 8 & 0xFF),
        LOWER_BYTE => Some(value & 0xFF),
        _ => None,
    }
}

fn two(operator: u8, left: i32, right: i32) -> Option<i32> {
    match operator {
        PLUS => Some(left.wrapping_add(right)),
        MINUS => Some(left.wrapping_sub(right)),
        TIMES => Some(left.wrapping_mul(right)),
        DIVIDE if right == 0 => None,
        DIVIDE => Some(left.wrapping_div(right)),
        XOR => Some(left ^ right),
        AND => Some(left & right),
        OR => Some(left | right),
        _ => None,
    }
}
