//! The main job over lent rooms: a listing judged, rewritten, printed; where its statements sit, where the new ones stem from, what their
//! targets name.

use crate::{owned, raw, Done, Refusal, Settings, Targets};

/// A listing room that is never too short: 57,344 characters, four more for each of 1,024 transfers, 1,024 line feeds and the first line
/// of five.
pub const LISTING_ROOM: usize = 62_469;
/// An image room that is never too short.
pub const IMAGE_ROOM: usize = 65_536;
/// What document 01's program prints has room in this.
pub const PAGE_ROOM: usize = 62_482;
/// The line 7E with its line feed.
pub const LINE_ROOM: usize = 19;
/// One more than a listing has statements.
pub const POSITIONS: usize = 1_025;
/// A room for a text that is never too short.
pub const TEXT_ROOM: usize = 86_016;
/// A room for a list of stems that is never too short.
pub const STEMS_ROOM: usize = 2_048;
/// A room that is never too short for `targets`.
pub const TARGETS_ROOM: usize = 46_080;

/// Judges a listing as it stands, and writes its image.
pub fn assemble(listing: &[u8], image: &mut [u8]) -> Result<Done, Refusal> {
    raw::assemble(listing, image).done()
}

/// Rewrites a listing until nothing can be folded or shrunk, and writes the new listing and its image.
pub fn optimize_jumps(asked: Settings, listing: &[u8], out: &mut [u8], image: &mut [u8]) -> Result<Done, Refusal> {
    raw::optimize_jumps(asked, listing, out, image).done()
}

/// C-13: `optimize_jumps` that hands out, in `list`, the place that each statement of the new listing stems from, in two bytes, high byte
/// first. Gives how many they are, too. Ask for comments where the differences are to be of what was rewritten alone.
pub fn optimize_stems(
    asked: Settings,
    listing: &[u8],
    out: &mut [u8],
    image: &mut [u8],
    list: &mut [u8],
) -> Result<(Done, usize), Refusal> {
    let r = raw::stems(asked, listing, out, image, list);
    r.told.unless((Done { listing: r.listing as usize, rewrites: r.rewrites as usize, image: r.image as usize }, r.stems as usize))
}

/// Writes what each transfer of the output names, beside what its target named in the input, a line of 45 characters each.
pub fn targets(asked: Settings, listing: &[u8], out: &mut [u8]) -> Result<Targets, Refusal> {
    let r = raw::targets(asked, listing, out);
    debug_assert_eq!(r.lines, 45 * r.transfers);
    r.told.unless(Targets { transfers: r.transfers as usize, marked: r.marked as usize })
}

/// C-17: the address of statement n, the position before its own org or pad; where n is the statement count, the end position. Answered
/// from the statements before n alone.
pub fn where_sits(listing: &[u8], n: usize) -> Result<usize, Refusal> {
    let r = raw::where_sits(listing, n);
    r.told.unless(r.address as usize)
}

/// C-16: writes a listing of either form as text for people, one line a statement, and gives the text's length.
pub fn text(listing: &[u8], text: &mut [u8]) -> Result<usize, Refusal> {
    raw::text(listing, text).done().map(|done| done.listing)
}

impl Refusal {
    /// The line that the program prints, its line feed apart.
    ///
    /// ```
    /// let far = mortarbee::Refusal { number: 10, place: 0, argument: 0, amount: 128 };
    /// assert_eq!(far.line(), "7E0A00000000000080");
    /// ```
    pub fn line(&self) -> String {
        let mut line = [0; LINE_ROOM];
        raw::refusal_line(self, &mut line);
        String::from_utf8_lossy(&line).trim_end().into()
    }
}

/// A room of just so many bytes.
fn room<const N: usize>() -> Box<[u8; N]> {
    vec![0; N].try_into().expect("it has so many")
}

/// What document 01's program prints: the new listing and the line 7F on one page, as it is proved; and the image.
pub fn print_run(asked: Settings, listing: &[u8]) -> Result<owned::Page, Refusal> {
    let (mut page, mut image) = (room::<PAGE_ROOM>(), room::<IMAGE_ROOM>());
    let r = raw::print_run(asked, listing, &mut page, &mut image);
    r.told.unless(())?;
    Ok(owned::Page {
        page: page[..r.page as usize].to_vec(),
        listing: r.listing as usize,
        rewrites: r.rewrites as usize,
        image: image[..r.image as usize].to_vec(),
    })
}

/// How many statements a listing has that keeps the form (1 and 2 alone are looked for).
pub fn check(listing: &[u8]) -> Result<usize, Refusal> {
    let r = raw::check(listing);
    r.told.unless(r.statements as usize)
}

/// C-17 of all statements: where each sits, and behind them the end position. Refusals: 1, 2, 5 and 6 of the whole listing.
pub fn positions(listing: &[u8]) -> Result<Vec<usize>, Refusal> {
    let mut all = [0; POSITIONS];
    let r = raw::positions(listing, &mut all);
    let statements = r.told.unless(r.statements as usize)?;
    Ok(all[..=statements].iter().map(|position| *position as usize).collect())
}
