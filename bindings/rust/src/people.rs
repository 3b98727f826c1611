//! Texts for people, images read back and damaged listings, over lent rooms.

use crate::{raw, Refusal, Saved};

/// A room for the listing of a text or of an image that is never too short.
pub const READ_ROOM: usize = 50_176;
/// Rooms that are never too short for `salvage`: listing and report.
pub const SALVAGE_ROOM: usize = 58_373;
pub const REPORT_ROOM: usize = 9_223;

/// C-19: reads a text for people, writes its listing in the old form, and gives the listing's length. 15 has the column, from 0, of the
/// first byte that no good line could have there.
pub fn read(text: &[u8], listing: &mut [u8]) -> Result<usize, Refusal> {
    let r = raw::read(text, listing);
    r.told.unless(r.listing as usize)
}

/// C-21: writes the listing of an image from the address `start` on, in the old form, and gives its length. It assembles to the same bytes.
pub fn read_back(image: &[u8], start: usize, listing: &mut [u8]) -> Result<usize, Refusal> {
    raw::read_back(image, start, listing).done().map(|done| done.listing)
}

/// C-22: keeps each line of a text that is a good frame by itself, replaces each other by a comment, and reports it: 7B, 1 or 2, the
/// place; where lines are left off, 7C and the place of the first.
pub fn salvage(text: &[u8], listing: &mut [u8], report: &mut [u8]) -> Result<Saved, Refusal> {
    let r = raw::salvage(text, listing, report);
    r.told.unless(Saved { statements: r.statements as usize, listing: r.listing as usize, report: r.report as usize })
}
