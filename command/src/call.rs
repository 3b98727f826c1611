//! What is typed behind a word, parted by the word's row of the table.

use crate::answer::Stop;
use crate::table::{Flag, Needs, Word};
use std::ffi::{OsStr, OsString};

pub struct Call {
    pub word: &'static Word,
    /// `-h` or `--help` was typed: nothing else counts.
    pub help: bool,
    pub output: Option<OsString>,
    options: Vec<(&'static Flag, Option<OsString>)>,
    numbers: Vec<u64>,
    files: Vec<OsString>,
}

impl Call {
    /// Parts the words. Behind `--` no word is an option.
    pub fn scan(word: &'static Word, typed: &[OsString]) -> Result<Call, Stop> {
        let mut call = Call { word, help: false, output: None, options: vec![], numbers: vec![], files: vec![] };
        let mut behind = false;
        let mut rest = typed.iter();
        while let Some(one) = rest.next() {
            let shown = one.to_string_lossy();
            if behind || shown == "-" || !shown.starts_with('-') {
                call.plain(one)?;
            } else if shown == "--" {
                behind = true;
            } else if shown == "-o" {
                call.output = Some(value(&mut rest, "-o")?);
            } else if let Some(option) = word.options.iter().find(|option| option.name == shown) {
                let value = if option.value.is_empty() { None } else { Some(value(&mut rest, option.name)?) };
                call.options.push((option, value));
            } else if shown == "-h" || shown == "--help" {
                call.help = true;
                return Ok(call);
            } else {
                return Err(Stop::Misuse(format!("{} has no option {shown}", word.name)));
            }
        }
        if call.numbers.len() < word.numbers.len() {
            return Err(Stop::Misuse(format!("{} needs a number", word.name)));
        }
        Ok(call)
    }

    /// A word that is no option: first the numbers that are wanted, then the files.
    fn plain(&mut self, one: &OsStr) -> Result<(), Stop> {
        if self.numbers.len() < self.word.numbers.len() {
            self.numbers.push(number_of(one)?);
        } else if self.files.len() < self.word.files.len() {
            self.files.push(one.to_owned());
        } else {
            let shown = one.to_string_lossy();
            return Err(Stop::Misuse(format!("{} takes no more words: {shown} is one too many", self.word.name)));
        }
        Ok(())
    }

    /// What the word and its options need.
    pub fn needs(&self) -> Needs {
        self.options.iter().map(|(option, _)| option.needs).fold(self.word.needs, Needs::max)
    }

    pub fn has(&self, flag: &str) -> bool {
        self.options.iter().any(|(option, _)| option.name == flag)
    }

    /// What stands behind an option; the last one counts.
    #[cfg_attr(not(feature = "core"), allow(dead_code))]
    pub fn value(&self, name: &str) -> Option<&OsStr> {
        self.options.iter().rev().find(|(option, _)| option.name == name).and_then(|(_, value)| value.as_deref())
    }

    #[cfg_attr(not(feature = "core"), allow(dead_code))]
    pub fn number(&self) -> usize {
        self.numbers[0] as usize
    }

    pub fn file(&self, k: usize) -> Option<&OsStr> {
        self.files.get(k).map(|file| file.as_os_str())
    }

    /// Where the answer goes.
    #[cfg_attr(not(feature = "core"), allow(dead_code))]
    pub fn out(&self) -> &OsStr {
        self.output.as_deref().filter(|output| *output != "-").unwrap_or("/dev/stdout".as_ref())
    }
}

#[cfg(feature = "core")]
impl Call {
    pub fn settings(&self) -> border::Settings {
        border::Settings { comments: self.has("--comments"), callf: !self.has("--no-callf"), folds: !self.has("--no-folds") }
    }

    /// Whether a switch of a run was typed.
    #[cfg(feature = "all")]
    pub fn has_switches(&self) -> bool {
        ["--comments", "--no-callf", "--no-folds"].iter().any(|flag| self.has(flag))
    }
}

fn value<'a>(rest: &mut impl Iterator<Item = &'a OsString>, option: &str) -> Result<OsString, Stop> {
    rest.next().cloned().ok_or_else(|| Stop::Misuse(format!("{option} needs a word behind it")))
}

/// A number in decimal or behind 0x. From 2^28 on it stays there: no statement, address, family or edition is as large.
pub fn number_of(one: &OsStr) -> Result<u64, Stop> {
    let shown = one.to_string_lossy();
    let (digits, base) = match shown.strip_prefix("0x").or_else(|| shown.strip_prefix("0X")) {
        Some(digits) => (digits, 16),
        None => (shown.as_ref(), 10),
    };
    let none = || Stop::Misuse(format!("{shown} is no number (numbers are decimal, or hexadecimal behind 0x)"));
    if digits.is_empty() {
        return Err(none());
    }
    digits.chars().try_fold(0u64, |n, c| {
        let digit = c.to_digit(base).ok_or_else(none)?;
        Ok((n * u64::from(base) + u64::from(digit)).min(1 << 28))
    })
}

/// A family or an edition.
#[cfg(feature = "all")]
pub fn two_bytes(one: &OsStr) -> Result<u16, Stop> {
    u16::try_from(number_of(one)?).map_err(|_| Stop::Trouble("a family and an edition are numbers from 0 to 65,535".into()))
}
