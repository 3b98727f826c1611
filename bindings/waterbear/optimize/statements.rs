//! waterbear's statements as a program of mortarbee-waterbear.
use super::instr::parts;
use crate::asm::{AssemblyError, compute_names};
use crate::ast::{ByteValue, Directive, Statement, Statements};
use crate::expression::{Expr, IndirectionMode};
use crate::location::Positioned;
use mortarbee_waterbear::program as made;
use mortarbee_waterbear::program::{Argument, Item, Program, What};
use mortarbee_waterbear::tables::*;

/// An argument of an instruction.
pub(super) enum Part {
    E(Expr),
    R(IndirectionMode),
}

pub(super) fn program(statements: &Statements) -> Result<Program, AssemblyError> {
    let (_, names) = compute_names(statements)?;
    let mut position = 0;
    let mut all = vec![];
    for statement in statements.iter() {
        let size = size(statement, position)?;
        all.push(made::Statement { what: what(statement)?, line: line(statement), at: position, size });
        position += size;
    }
    Ok(Program { statements: all, globals: names.globals, locals: names.locals })
}

pub(super) fn size(statement: &Statement, position: i32) -> Result<i32, AssemblyError> {
    Ok(match statement {
        Statement::Directive(directive) => directive.size(position)?,
        Statement::Instr(_, instruction) => instruction.size() as i32,
        _ => 0,
    })
}

/// Where a statement comes from: its line in the low three bytes, its file's number above.
fn line(statement: &Statement) -> u32 {
    let span = statement.span();
    let file: String = span.start().file().to_string().chars().filter(char::is_ascii_digit).collect();
    file.parse::<u32>().unwrap_or(0).min(255) << 24 | (span.start().line() as u32 & 0xFF_FFFF)
}

fn what(statement: &Statement) -> Result<What, AssemblyError> {
    Ok(match statement {
        Statement::Comment(_) => What::Comment,
        Statement::Label(_, name) => What::Label(name.to_lowercase()),
        Statement::Variable(_, name, expr) | Statement::Alias(_, name, expr) => What::Variable(name.to_lowercase(), value(expr)),
        Statement::Instr(_, instruction) => {
            let (form, parts) = parts(instruction);
            What::Instruction(form, parts.iter().map(argument).collect())
        }
        Statement::Directive(directive) => data(directive)?,
        Statement::InternalLabel(..) | Statement::MacroCall(..) => panic!("no such statement is left while optimizing"),
    })
}

fn argument(part: &Part) -> Argument {
    match part {
        Part::E(expr) => Argument::Value(value(expr)),
        Part::R(register) => Argument::Register(register.index()),
    }
}

fn data(directive: &Directive) -> Result<What, AssemblyError> {
    let filled = |size: usize, text: &[u8], fill: u8| {
        let mut all = text.to_vec();
        all.resize(size, fill);
        What::Bytes(vec![Item::Text(all)])
    };
    Ok(match directive {
        Directive::Byte(_, values) => What::Bytes(values.iter().map(item).collect()),
        Directive::Word(_, exprs) => What::Words(exprs.iter().map(|expr| Item::Value(value(expr))).collect()),
        Directive::Text(_, size, text) => filled(*size, text, b' '),
        Directive::String(_, size, text) => filled(*size, text, 0),
        Directive::Org(_, location) => What::Org(*location),
        Directive::Cnop(_, add, multiple) => What::Pad(literal(add)?, literal(multiple)?),
        Directive::Include(..) => panic!("no such directive is left while optimizing"),
    })
}

fn item(value_or_text: &ByteValue) -> Item {
    match value_or_text {
        ByteValue::Expr(expr) => Item::Value(value(expr)),
        ByteValue::String(_, text) => Item::Text(text.clone()),
    }
}

fn literal(expr: &Expr) -> Result<i32, AssemblyError> {
    match expr {
        Expr::Number(_, value, _) => Ok(*value),
        _ => Err(AssemblyError::MustBeLiteralNumber(expr.span())),
    }
}

fn value(expr: &Expr) -> made::Expr {
    let one = |operator: u8, e: &Expr| made::Expr::One(operator, Box::new(value(e)));
    let two = |operator: u8, l: &Expr, r: &Expr| made::Expr::Two(operator, Box::new(value(l)), Box::new(value(r)));
    match expr {
        Expr::Number(_, value, _) => made::Expr::Number(*value),
        Expr::Name(_, name) => made::Expr::Name(name.to_lowercase()),
        Expr::Plus(_, l, r) => two(PLUS, l, r),
        Expr::Minus(_, l, r) => two(MINUS, l, r),
        Expr::Times(_, l, r) => two(TIMES, l, r),
        Expr::Divide(_, l, r) => two(DIVIDE, l, r),
        Expr::BitwiseXor(_, l, r) => two(XOR, l, r),
        Expr::BitwiseAnd(_, l, r) => two(AND, l, r),
        Expr::BitwiseOr(_, l, r) => two(OR, l, r),
        Expr::UnaryMinus(_, e) => one(UNARY_MINUS, e),
        Expr::UpperByte(_, e) => one(UPPER_BYTE, e),
        Expr::LowerByte(_, e) => one(LOWER_BYTE, e),
        Expr::InternalName(..) | Expr::MacroLabel(..) | Expr::MacroArg(..) => panic!("no such expression is left while optimizing"),
    }
}
