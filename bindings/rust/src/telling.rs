//! What a run did and left, over lent rooms: differences, an audit, the rewrites one by one, the map, why something stays.

use crate::{raw, Finding, NotCompared, Origin, Refusal, Settings, Whose};

/// A room for differences that is never too short.
pub const DIFFERENCES_ROOM: usize = 129_024;
/// A room that is never too short for `steps`.
pub const STEPS_ROOM: usize = 64_512;
/// A room that is never too short for `map`.
pub const MAP_ROOM: usize = 37_888;
/// A room that is never too short for `why`.
pub const WHY_ROOM: usize = 55_296;

/// C-13: writes the differences of two listings as lines 70 to 73, and gives the text's length. A pairing has two bytes an entry, high
/// byte first: entry i is the place of the first listing that statement i of the second is paired with; an empty one pairs nothing.
/// Without one, what both begin and end with is paired.
pub fn differences(first: &[u8], second: &[u8], pairing: Option<&[u8]>, out: &mut [u8]) -> Result<usize, NotCompared> {
    let r = raw::differences(first, second, pairing, out);
    let whose = match r.whose {
        1 => Whose::First,
        2 => Whose::Second,
        _ => Whose::Both,
    };
    r.told.unless(r.text as usize).map_err(|refusal| NotCompared { whose, refusal })
}

/// Holds a shipped image against what its long listing shrinks to.
pub fn audit(asked: Settings, listing: &[u8], shipped: &[u8]) -> Result<Finding, Refusal> {
    let r = raw::audit(asked, listing, shipped);
    let address = r.address as usize;
    let origin = (r.owned != 0).then_some(Origin { statement: r.statement as usize, offset: r.offset as usize });
    r.told.unless(match r.finding {
        0 => Finding::Same,
        1 => Finding::Differs { address, wanted: r.wanted as u8, shipped: r.shipped as u8, origin },
        2 => Finding::Short { address, origin },
        _ => Finding::Long { address },
    })
}

/// Writes the rewrites of a listing in order, a line of 21 characters each, and gives their number.
pub fn steps(asked: Settings, listing: &[u8], out: &mut [u8]) -> Result<usize, Refusal> {
    let r = raw::steps(asked, listing, out);
    debug_assert_eq!(r.lines, 21 * r.rewrites);
    r.told.unless(r.rewrites as usize)
}

/// Writes where each instruction and each piece of data stands in the listing's own image and in that of the output, a row of 37
/// characters each, and gives the number of rows.
pub fn map(asked: Settings, listing: &[u8], out: &mut [u8]) -> Result<usize, Refusal> {
    let r = raw::map(asked, listing, out);
    debug_assert_eq!(r.lines, 37 * r.rows);
    r.told.unless(r.rows as usize)
}

/// Writes why something stays, a line of 27 characters for each form or pattern that is tried on the end form, and gives their number.
pub fn why(asked: Settings, listing: &[u8], out: &mut [u8]) -> Result<usize, Refusal> {
    let r = raw::why(asked, listing, out);
    debug_assert_eq!(r.lines % 27, 0);
    r.told.unless(r.lines as usize / 27)
}
