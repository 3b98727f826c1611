//! C-24: editions of settings in a store, and runs under them.

use crate::{raw, Done, Edition, Refusal, Settings};

/// A store room that is just long enough. Zeros are an empty store, and bytes beyond these never change.
pub const STORE_ROOM: usize = 160;

fn edition_in(r: raw::FoundReply) -> Result<Edition, Refusal> {
    let settings = Settings { comments: r.comments != 0, callf: r.callf != 0, folds: r.folds != 0 };
    r.told.unless(Edition { number: r.edition as u16, settings })
}

/// C-24: adds an edition of a family, and gives its number.
pub fn add_edition(store: &mut [u8], family: u16, settings: Settings) -> Result<u16, Refusal> {
    let r = raw::add_edition(store, family, settings);
    r.told.unless(r.edition as u16)
}

/// An edition of a family.
pub fn get_edition(store: &[u8], family: u16, edition: u16) -> Result<Edition, Refusal> {
    edition_in(raw::get_edition(store, family, edition))
}

/// The newest edition of a family.
pub fn get_newest(store: &[u8], family: u16) -> Result<Edition, Refusal> {
    edition_in(raw::get_newest(store, family))
}

/// Drops the old editions of a family, and gives the number of the newest, which stays.
pub fn drop_old(store: &mut [u8], family: u16) -> Result<u16, Refusal> {
    let r = raw::drop_old(store, family);
    r.told.unless(r.edition as u16)
}

/// `optimize_jumps` under an edition of a family, 0 for its newest.
pub fn optimize_jumps_under(
    store: &[u8],
    family: u16,
    edition: u16,
    listing: &[u8],
    out: &mut [u8],
    image: &mut [u8],
) -> Result<Done, Refusal> {
    raw::optimize_jumps_under(store, family, edition, listing, out, image).done()
}

/// C-24: what place k of a store holds, 0 to 31: its family and its edition; nothing from 32 on.
pub fn show_place(store: &[u8], k: usize) -> Result<Option<(u16, Edition)>, Refusal> {
    let r = raw::show_place(store, k);
    let settings = Settings { comments: r.comments != 0, callf: r.callf != 0, folds: r.folds != 0 };
    r.told.unless((r.held != 0).then_some((r.family as u16, Edition { number: r.edition as u16, settings })))
}
