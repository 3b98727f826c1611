//! A line 77: what holding an image against a listing finds.

use super::digits::Digits;
use super::NoSuchLine;
use std::fmt;
use std::str::FromStr;

/// The statement of a listing that a byte of the image belongs to, by its place, and the byte's offset in what became of it.
#[derive(Clone, Copy, Debug, PartialEq, Eq)]
pub struct Origin {
    pub statement: usize,
    pub offset: usize,
}

impl Origin {
    /// FFFF is no statement's.
    pub(super) fn of(d: &mut Digits) -> Result<Option<Origin>, NoSuchLine> {
        let (statement, offset) = (d.two()?, d.two()?);
        Ok((statement != 0xFFFF).then_some(Origin { statement: statement.into(), offset: offset.into() }))
    }
}

/// As the lines have it.
pub(super) struct Placed(pub Option<Origin>);

impl fmt::Display for Placed {
    fn fmt(&self, f: &mut fmt::Formatter) -> fmt::Result {
        let Origin { statement, offset } = self.0.unwrap_or(Origin { statement: 0xFFFF, offset: 0 });
        write!(f, "{statement:04X}{offset:04X}")
    }
}

/// What holding an image against a listing finds: the first address at which they are not the same. No origin: the byte is a gap that an
/// org leaves.
#[derive(Clone, Copy, Debug, PartialEq, Eq)]
pub enum Finding {
    Same,
    Differs {
        address: usize,
        wanted: u8,
        shipped: u8,
        origin: Option<Origin>,
    },
    /// The shipped image ends there, where the wanted one has a byte.
    Short {
        address: usize,
        origin: Option<Origin>,
    },
    /// The wanted image ends there, where the shipped one has a byte.
    Long {
        address: usize,
    },
}

impl FromStr for Finding {
    type Err = NoSuchLine;

    fn from_str(line: &str) -> Result<Self, NoSuchLine> {
        let mut d = Digits::behind(line, 0x77)?;
        let (kind, address) = (d.byte()?, d.three()? as usize);
        let (wanted, shipped, origin) = (d.byte()?, d.byte()?, Origin::of(&mut d)?);
        let finding = match kind {
            0 => Finding::Same,
            1 => Finding::Differs { address, wanted, shipped, origin },
            2 => Finding::Short { address, origin },
            3 => Finding::Long { address },
            _ => return Err(NoSuchLine),
        };
        d.end(finding)
    }
}

impl fmt::Display for Finding {
    fn fmt(&self, f: &mut fmt::Formatter) -> fmt::Result {
        let (kind, address, wanted, shipped, origin) = match *self {
            Finding::Same => (0, 0, 0, 0, None),
            Finding::Differs { address, wanted, shipped, origin } => (1, address, wanted, shipped, origin),
            Finding::Short { address, origin } => (2, address, 0, 0, origin),
            Finding::Long { address } => (3, address, 0, 0, None),
        };
        write!(f, "77{kind:02X}{address:06X}{wanted:02X}{shipped:02X}{}", Placed(origin))
    }
}
