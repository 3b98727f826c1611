//! The refusals of documents 01 and 02: their four numbers, the line 7E, and what each means.

use std::error::Error;
use std::fmt;

/// One of the refusals of documents 01 and 02. `Display` says it in words; [`Refusal::line`] is the line that the program prints.
///
/// ```
/// let far = mortarbee::Refusal { number: 10, place: 0, argument: 0, amount: 128 };
/// assert_eq!(far.to_string(), "refused 10, statement 0: a relative target is too far away");
/// ```
#[derive(Clone, Copy, Debug, PartialEq, Eq)]
pub struct Refusal {
    /// 1 to 12; 13 of `differences`; 14 of `where_sits`; 15 of `read`; 16 of `read_back`; 17 to 19 of a store.
    pub number: u8,
    /// The statement's place from 0; for 12 the statement count; for 13 the entry's index; 0 for 14, 16 and of a store.
    pub place: usize,
    /// For 8 to 11 the place of the argument or data item, from 0; else 0.
    pub argument: usize,
    /// For 8, 9 and 11 its value, for 10 the difference, for 15 the column, from 0; else 0.
    pub amount: i32,
}

impl Refusal {
    /// What the number means.
    pub fn sentence(&self) -> &'static str {
        match self.number {
            1 => "the line or frame breaks the form of a listing",
            2 => "a limit is passed",
            3 => "the name is defined before",
            4 => "a name is not found",
            5 => "the org is below the position",
            6 => "the position would pass 65,536",
            7 => "a node has no value: out of range, or a zero divisor",
            8 => "an operand is out of its range",
            9 => "a relative target is outside 0 to 65,535",
            10 => "a relative target is too far away",
            11 => "the target is in another page of 4,096 bytes",
            13 => "the pairing is out of order, or names a statement that is not there",
            14 => "there is no such statement: the listing has fewer",
            15 => "the line is none of a listing for people",
            16 => "the start is beyond the end of the image",
            17 => "the store does not have that family or edition",
            18 => "the store is full, or the family has its last edition, 65,535",
            19 => "the store holds a setting twice, or one out of its range",
            _ => "a lent room is too short",
        }
    }

    /// Whether it is about a statement of a listing, or a line of a text.
    pub fn is_of_statement(&self) -> bool {
        matches!(self.number, 1..=11 | 15)
    }
}

impl fmt::Display for Refusal {
    fn fmt(&self, f: &mut fmt::Formatter) -> fmt::Result {
        write!(f, "refused {}", self.number)?;
        if self.is_of_statement() {
            write!(f, ", statement {}", self.place)?;
        }
        write!(f, ": {}", self.sentence())
    }
}

impl Error for Refusal {}

/// What a refusal of `differences` is about: 1 and 2 are a listing's, 13 and 12 of both.
#[derive(Clone, Copy, Debug, PartialEq, Eq)]
pub enum Whose {
    First,
    Second,
    Both,
}

/// A refusal of `differences`, and which listing it is about.
#[derive(Clone, Copy, Debug, PartialEq, Eq)]
pub struct NotCompared {
    pub whose: Whose,
    pub refusal: Refusal,
}

impl fmt::Display for NotCompared {
    fn fmt(&self, f: &mut fmt::Formatter) -> fmt::Result {
        match self.whose {
            Whose::First => write!(f, "the first listing: {}", self.refusal),
            Whose::Second => write!(f, "the second listing: {}", self.refusal),
            Whose::Both => self.refusal.fmt(f),
        }
    }
}

impl Error for NotCompared {
    fn source(&self) -> Option<&(dyn Error + 'static)> {
        Some(&self.refusal)
    }
}
