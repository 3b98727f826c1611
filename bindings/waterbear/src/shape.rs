//! What the level Bare asks of a program: segments, pieces of folds, labels that something names.
use crate::program::{is_local, Program, What};
use crate::tables::{is_branch, BR, JMP, JMPF};
use std::collections::HashMap;

/// What a statement may be in a fold.
#[derive(Clone, Copy, Debug, PartialEq)]
pub enum Role {
    Branch,
    Jump,
    Local,
    None,
}

pub fn role(what: &What) -> Role {
    match what {
        What::Label(name) if is_local(name) => Role::Local,
        What::Instruction(JMP | JMPF | BR, _) => Role::Jump,
        What::Instruction(form, _) if is_branch(*form) => Role::Branch,
        _ => Role::None,
    }
}

/// By statement.
pub struct Shape {
    /// Counts the orgs and pads before a statement: between two statements of one segment a rewrite only takes bytes away.
    pub segments: Vec<usize>,
    pub contexts: Vec<String>,
    /// Whether it may be a piece of a fold: a branch before a jump, a jump before a local label, a local label behind a jump.
    pub pieces: Vec<bool>,
    /// The image cannot come to 65,536 bytes.
    pub short: bool,
    labels: HashMap<(String, String), usize>,
}

/// Labels are told apart by context, empty for global ones, and name.
fn key(context: &str, name: &str) -> (String, String) {
    (if is_local(name) { context.to_owned() } else { String::new() }, name.to_owned())
}

fn pieces(program: &Program) -> Vec<bool> {
    let all = program.statements.iter().enumerate();
    let roles: Vec<(usize, Role)> = all.filter(|(_, s)| s.what != What::Comment).map(|(place, s)| (place, role(&s.what))).collect();
    let mut pieces = vec![false; program.statements.len()];
    for pair in roles.windows(2) {
        let ((first, a), (second, b)) = (pair[0], pair[1]);
        pieces[first] |= (a, b) == (Role::Branch, Role::Jump) || (a, b) == (Role::Jump, Role::Local);
        pieces[second] |= (a, b) == (Role::Jump, Role::Local);
    }
    pieces
}

impl Shape {
    pub fn new(program: &Program) -> Shape {
        let contexts = program.contexts();
        let (mut segment, mut short) = (0, true);
        let (mut segments, mut labels) = (vec![], HashMap::new());
        for (place, statement) in program.statements.iter().enumerate() {
            match &statement.what {
                What::Org(_) | What::Pad(..) => segment += 1,
                What::Label(name) => {
                    labels.insert(key(&contexts[place], name), place);
                }
                _ => {}
            }
            short &= statement.at.saturating_add(statement.size) < 65_536;
            segments.push(segment);
        }
        Shape { segments, contexts, pieces: pieces(program), short, labels }
    }

    /// The place of the label that a name means at a place.
    pub fn label(&self, place: usize, name: &str) -> Option<usize> {
        self.labels.get(&key(&self.contexts[place], name)).copied()
    }
}
