//! A program as the assembler has it when it calls its optimizer: statements with the position and the size that it gives them, and what
//! its names are worth.
use std::collections::HashMap;

/// An operator is its number in a listing. Names are in lower case; a local one begins with a dot.
#[derive(Clone, Debug, PartialEq)]
pub enum Expr {
    Number(i32),
    Name(String),
    One(u8, Box<Expr>),
    Two(u8, Box<Expr>, Box<Expr>),
}

impl Expr {
    /// Whether a test holds of some name.
    pub fn any_name(&self, test: &mut dyn FnMut(&str) -> bool) -> bool {
        match self {
            Expr::Number(_) => false,
            Expr::Name(name) => test(name),
            Expr::One(_, e) => e.any_name(test),
            Expr::Two(_, l, r) => l.any_name(test) || r.any_name(test),
        }
    }
}

pub fn is_local(name: &str) -> bool {
    name.starts_with('.')
}

#[derive(Clone, Debug, PartialEq)]
pub enum Argument {
    Register(u8),
    Value(Expr),
}

/// A piece of data: bytes as they are, or one value.
#[derive(Clone, Debug, PartialEq)]
pub enum Item {
    Text(Vec<u8>),
    Value(Expr),
}

#[derive(Clone, Debug, PartialEq)]
pub enum What {
    Comment,
    Label(String),
    Variable(String, Expr),
    /// A form's number and its arguments.
    Instruction(u8, Vec<Argument>),
    Bytes(Vec<Item>),
    Words(Vec<Item>),
    Org(usize),
    /// What is added, and the multiple.
    Pad(i32, i32),
}

#[derive(Clone, Debug)]
pub struct Statement {
    pub what: What,
    /// Where it stands in the source; it travels with the listing.
    pub line: u32,
    /// Its position and size, as the assembler lays it out. An org that goes back has a negative size.
    pub at: i32,
    pub size: i32,
}

impl Statement {
    /// The expressions that it holds.
    pub fn values(&self) -> Vec<&Expr> {
        match &self.what {
            What::Comment | What::Label(_) | What::Org(_) | What::Pad(..) => vec![],
            What::Variable(_, e) => vec![e],
            What::Instruction(_, arguments) => arguments
                .iter()
                .filter_map(|argument| match argument {
                    Argument::Value(e) => Some(e),
                    Argument::Register(_) => None,
                })
                .collect(),
            What::Bytes(items) | What::Words(items) => items
                .iter()
                .filter_map(|item| match item {
                    Item::Value(e) => Some(e),
                    Item::Text(_) => None,
                })
                .collect(),
        }
    }

    /// The target of a transfer.
    pub fn target(&self) -> Option<&Expr> {
        match &self.what {
            What::Instruction(form, arguments) if crate::tables::is_transfer(*form) => match arguments.last() {
                Some(Argument::Value(target)) => Some(target),
                _ => None,
            },
            _ => None,
        }
    }
}

#[derive(Clone, Debug, Default)]
pub struct Program {
    pub statements: Vec<Statement>,
    /// What global labels and variables are worth.
    pub globals: HashMap<String, i32>,
    /// What local labels are worth, by the global label that they stand under, "" before the first.
    pub locals: HashMap<String, HashMap<String, i32>>,
}

impl Program {
    /// The global label that each statement stands under.
    pub fn contexts(&self) -> Vec<String> {
        let mut context = String::new();
        let mut found = vec![];
        for statement in &self.statements {
            match &statement.what {
                What::Label(name) if !is_local(name) => context = name.clone(),
                _ => {}
            }
            found.push(context.clone());
        }
        found
    }
}
