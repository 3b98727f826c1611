//! A line 75: why something stays.

use super::digits::Digits;
use super::NoSuchLine;
use crate::Refusal;
use std::fmt;
use std::str::FromStr;

/// What is tried in the place of a transfer.
#[derive(Clone, Copy, Debug, PartialEq, Eq)]
pub enum Tried {
    /// A shorter form, by its number.
    Form(u8),
    /// A pattern of rule 3, by its place in their order.
    Pattern(u8),
}

/// Why it is not done.
#[derive(Clone, Copy, Debug, PartialEq, Eq)]
pub enum Reason {
    ChangeJump,
    /// An inner label points inside.
    InnerLabel,
    /// An inner label stands between the pattern's statements.
    LabelBetween,
    /// It leaves an offset beyond a pad.
    BeyondPad,
    /// What it leaves is refused.
    Refused(Refusal),
}

/// A line 75: what was tried at a place of the end form, and why it is not done. Places are the listing's.
#[derive(Clone, Copy, Debug, PartialEq, Eq)]
pub struct Why {
    pub tried: Tried,
    pub place: u16,
    pub reason: Reason,
}

const NONE: Refusal = Refusal { number: 0, place: 0, argument: 0, amount: 0 };

impl FromStr for Why {
    type Err = NoSuchLine;

    fn from_str(line: &str) -> Result<Self, NoSuchLine> {
        let mut d = Digits::behind(line, 0x75)?;
        let (tried, place, reason) = (d.byte()?, d.two()?, d.byte()?);
        let refusal = Refusal { number: d.byte()?, place: d.two()?.into(), argument: d.byte()?.into(), amount: d.four()? as i32 };
        let reason = match (reason, refusal) {
            (1, NONE) => Reason::ChangeJump,
            (2, NONE) => Reason::InnerLabel,
            (3, NONE) => Reason::LabelBetween,
            (4, NONE) => Reason::BeyondPad,
            (5, refusal) => Reason::Refused(refusal),
            _ => return Err(NoSuchLine),
        };
        let tried = tried.checked_sub(0x80).map_or(Tried::Form(tried), Tried::Pattern);
        d.end(Why { tried, place, reason })
    }
}

impl fmt::Display for Why {
    fn fmt(&self, f: &mut fmt::Formatter) -> fmt::Result {
        let tried = match self.tried {
            Tried::Form(form) => form,
            Tried::Pattern(pattern) => 0x80 | pattern,
        };
        let (reason, r) = match self.reason {
            Reason::ChangeJump => (1, NONE),
            Reason::InnerLabel => (2, NONE),
            Reason::LabelBetween => (3, NONE),
            Reason::BeyondPad => (4, NONE),
            Reason::Refused(refusal) => (5, refusal),
        };
        write!(f, "75{tried:02X}{:04X}{reason:02X}", self.place)?;
        write!(f, "{:02X}{:04X}{:02X}{:08X}", r.number, r.place, r.argument, r.amount)
    }
}
