//! The lines 70 to 77 as values. Each kind has one parser (`FromStr`), and `Display` writes the same line again, its line feed apart.
//!
//! ```
//! use mortarbee::lines::{all, Rule, Step};
//! let steps: Vec<Step> = all(b"760100002E00002F0001\n760300052B00052C0005\n").unwrap();
//! assert_eq!((steps[0].rule, steps[1].place), (Rule::Inverted, 5));
//! assert_eq!(steps[0].to_string(), "760100002E00002F0001");
//! ```

mod digits;
mod finding;
mod reason;

use crate::Refusal;
use digits::Digits;
pub use finding::{Finding, Origin};
pub use reason::{Reason, Tried, Why};
use std::error::Error;
use std::fmt;
use std::str::FromStr;

/// The text is none of the lines that were asked for.
#[derive(Clone, Copy, Debug, PartialEq, Eq)]
pub struct NoSuchLine;

impl fmt::Display for NoSuchLine {
    fn fmt(&self, f: &mut fmt::Formatter) -> fmt::Result {
        f.write_str("the text is no such line")
    }
}

impl Error for NoSuchLine {}

/// All lines of an answer.
pub fn all<L: FromStr<Err = NoSuchLine>>(answer: &[u8]) -> Result<Vec<L>, NoSuchLine> {
    std::str::from_utf8(answer).map_err(|_| NoSuchLine)?.lines().map(str::parse).collect()
}

/// C-13: a line 70 to 73. Frames are as they stand, in digits.
#[derive(Clone, Debug, PartialEq, Eq)]
pub enum Difference {
    /// 70: in both listings.
    Kept { first: u16, second: u16, frame: String },
    /// 71: in the first alone.
    Removed { place: u16, frame: String },
    /// 72: in the second alone.
    Added { place: u16, frame: String },
    /// 73: paired, and not the same.
    Changed { first: u16, second: u16, old: String, new: String },
}

impl FromStr for Difference {
    type Err = NoSuchLine;

    fn from_str(line: &str) -> Result<Self, NoSuchLine> {
        let mut d = Digits::of(line)?;
        match d.byte()? {
            0x70 => Ok(Difference::Kept { first: d.two()?, second: d.two()?, frame: d.rest()? }),
            0x71 => Ok(Difference::Removed { place: d.two()?, frame: d.rest()? }),
            0x72 => Ok(Difference::Added { place: d.two()?, frame: d.rest()? }),
            0x73 => {
                let (first, second, count) = (d.two()?, d.two()?, d.byte()?);
                Ok(Difference::Changed { first, second, old: d.bytes(count.into())?, new: d.rest()? })
            }
            _ => Err(NoSuchLine),
        }
    }
}

impl fmt::Display for Difference {
    fn fmt(&self, f: &mut fmt::Formatter) -> fmt::Result {
        match self {
            Difference::Kept { first, second, frame } => write!(f, "70{first:04X}{second:04X}{frame}"),
            Difference::Removed { place, frame } => write!(f, "71{place:04X}{frame}"),
            Difference::Added { place, frame } => write!(f, "72{place:04X}{frame}"),
            Difference::Changed { first, second, old, new } => write!(f, "73{first:04X}{second:04X}{:02X}{old}{new}", old.len() / 2),
        }
    }
}

/// What a target's value names: the byte of a statement, by its place and offset, or no statement's.
#[derive(Clone, Copy, Debug, PartialEq, Eq)]
pub struct Named {
    pub value: u32,
    pub origin: Option<Origin>,
}

impl Named {
    fn of(d: &mut Digits) -> Result<Named, NoSuchLine> {
        Ok(Named { value: d.four()?, origin: Origin::of(d)? })
    }
}

/// A line 74: a transfer of the output, the place whose target it carries, and what this names in the input and in the output.
#[derive(Clone, Copy, Debug, PartialEq, Eq)]
pub struct Target {
    /// It names another byte than before, or none.
    pub marked: bool,
    pub place: u16,
    pub carried: u16,
    pub before: Named,
    pub after: Named,
}

impl FromStr for Target {
    type Err = NoSuchLine;

    fn from_str(line: &str) -> Result<Self, NoSuchLine> {
        let mut d = Digits::behind(line, 0x74)?;
        let marked = match d.byte()? {
            0 => false,
            1 => true,
            _ => return Err(NoSuchLine),
        };
        let target = Target { marked, place: d.two()?, carried: d.two()?, before: Named::of(&mut d)?, after: Named::of(&mut d)? };
        d.end(target)
    }
}

impl fmt::Display for Target {
    fn fmt(&self, f: &mut fmt::Formatter) -> fmt::Result {
        write!(f, "74{:02X}{:04X}{:04X}", self.marked as u8, self.place, self.carried)?;
        for named in [self.before, self.after] {
            write!(f, "{:08X}{}", named.value, finding::Placed(named.origin))?;
        }
        Ok(())
    }
}

/// The rule of a rewrite.
#[derive(Clone, Copy, Debug, PartialEq, Eq)]
pub enum Rule {
    Inverted = 1,
    Trampoline = 2,
    Shrink = 3,
}

/// A transfer: its form's number, and the place whose target it carries.
#[derive(Clone, Copy, Debug, PartialEq, Eq)]
pub struct Carrying {
    pub form: u8,
    pub place: u16,
}

/// A line 76: a rewrite, where, and what stood and stands there.
#[derive(Clone, Copy, Debug, PartialEq, Eq)]
pub struct Step {
    pub rule: Rule,
    pub place: u16,
    pub from: Carrying,
    pub to: Carrying,
}

impl FromStr for Step {
    type Err = NoSuchLine;

    fn from_str(line: &str) -> Result<Self, NoSuchLine> {
        let mut d = Digits::behind(line, 0x76)?;
        let rule = match d.byte()? {
            1 => Rule::Inverted,
            2 => Rule::Trampoline,
            3 => Rule::Shrink,
            _ => return Err(NoSuchLine),
        };
        let place = d.two()?;
        let from = Carrying { form: d.byte()?, place: d.two()? };
        let to = Carrying { form: d.byte()?, place: d.two()? };
        d.end(Step { rule, place, from, to })
    }
}

impl fmt::Display for Step {
    fn fmt(&self, f: &mut fmt::Formatter) -> fmt::Result {
        write!(f, "76{:02X}{:04X}", self.rule as u8, self.place)?;
        write!(f, "{:02X}{:04X}{:02X}{:04X}", self.from.form, self.from.place, self.to.form, self.to.place)
    }
}

/// A line 7B or 7C of a report of `salvage` (C-22).
#[derive(Clone, Copy, Debug, PartialEq, Eq)]
pub enum Salvage {
    /// 7B: the line at this place became a comment, for 1 or 2.
    Replaced { number: u8, place: u16 },
    /// 7C: from this place on lines are left off.
    LeftOff { place: u16 },
}

impl FromStr for Salvage {
    type Err = NoSuchLine;

    fn from_str(line: &str) -> Result<Self, NoSuchLine> {
        let mut d = Digits::of(line)?;
        let told = match d.byte()? {
            0x7B => Salvage::Replaced { number: d.byte()?, place: d.two()? },
            0x7C => Salvage::LeftOff { place: d.two()? },
            _ => return Err(NoSuchLine),
        };
        d.end(told)
    }
}

impl fmt::Display for Salvage {
    fn fmt(&self, f: &mut fmt::Formatter) -> fmt::Result {
        match self {
            Salvage::Replaced { number, place } => write!(f, "7B{number:02X}{place:04X}"),
            Salvage::LeftOff { place } => write!(f, "7C{place:04X}"),
        }
    }
}

/// A line 7E.
impl FromStr for Refusal {
    type Err = NoSuchLine;

    fn from_str(line: &str) -> Result<Self, NoSuchLine> {
        let mut d = Digits::behind(line, 0x7E)?;
        let refusal = Refusal { number: d.byte()?, place: d.two()?.into(), argument: d.byte()?.into(), amount: d.four()? as i32 };
        d.end(refusal)
    }
}
