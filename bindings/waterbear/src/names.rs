//! The numbers of names in a listing, and the file that says which is which.
use crate::program::is_local;
use std::collections::HashMap;

#[derive(Default)]
pub struct Names {
    numbers: HashMap<String, u16>,
    listed: Vec<(u16, String)>,
    globals: u16,
    locals: u16,
}

impl Names {
    /// A number that no name has. A listing ends long before they do.
    pub fn fresh(&mut self, local: bool) -> u16 {
        let (count, first) = if local { (&mut self.locals, 0x8000) } else { (&mut self.globals, 0) };
        let number = first | *count & 0x7FFF;
        *count = count.wrapping_add(1);
        number
    }

    /// The number of a name, by its text: a local name has one number in all its contexts.
    pub fn number(&mut self, name: &str) -> u16 {
        if let Some(number) = self.numbers.get(name) {
            return *number;
        }
        let number = self.fresh(is_local(name));
        self.numbers.insert(name.to_owned(), number);
        self.listed.push((number, name.to_owned()));
        number
    }

    /// A line for each name: `8001 .loop`.
    pub fn lines(&self) -> String {
        let mut listed = self.listed.clone();
        listed.sort();
        listed.iter().map(|(number, name)| format!("{number:04X} {}\n", shown(*number, name))).collect()
    }
}

/// A macro's label has 32 random digits behind its name; the number tells them apart as well, and is the same in each run.
fn shown(number: u16, name: &str) -> String {
    let (label, context) = name.split_once(' ').unwrap_or((name, ""));
    match label.rsplit_once('_') {
        Some((head, tail)) if tail.len() == 32 && tail.bytes().all(|c| c.is_ascii_hexdigit()) => {
            format!("{head}%{:X} {context}", number & 0x7FFF).trim_end().to_owned()
        }
        _ => name.to_owned(),
    }
}
