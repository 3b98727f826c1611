//! The entries with their answers in vectors: the rooms are lent here, and are never too short, so 12 is never given.
//!
//! ```
//! use mortarbee::{owned, Settings};
//! let run = owned::optimize_jumps(Settings::default(), b"012B0000000003\n0143\n").unwrap();
//! assert_eq!(run.listing, b"012C0000000002\n0143\n");
//! assert_eq!((run.rewrites, run.image), (1, vec![0x01, 0x00, 0x00]));
//! ```

#[cfg(feature = "all")]
mod rest;
#[cfg(feature = "all")]
pub use rest::*;

use crate::{Refusal, Settings, Targets, IMAGE_ROOM, LISTING_ROOM, STEMS_ROOM, TARGETS_ROOM, TEXT_ROOM};

/// A finished run.
#[derive(Clone, Debug, PartialEq, Eq)]
pub struct Run {
    /// The new listing, the line 7F not among it.
    pub listing: Vec<u8>,
    pub rewrites: usize,
    pub image: Vec<u8>,
}

/// What document 01's program prints of a finished run, and the image.
#[derive(Clone, Debug, PartialEq, Eq)]
pub struct Page {
    /// The new listing and the line 7F.
    pub page: Vec<u8>,
    /// How much of the page is the listing.
    pub listing: usize,
    pub rewrites: usize,
    pub image: Vec<u8>,
}

impl Page {
    /// The new listing, and the line 7F.
    pub fn parts(&self) -> (&[u8], &[u8]) {
        self.page.split_at(self.listing)
    }
}

fn cut(mut room: Vec<u8>, n: usize) -> Vec<u8> {
    room.truncate(n);
    room
}

pub fn assemble(listing: &[u8]) -> Result<Vec<u8>, Refusal> {
    let mut image = vec![0; IMAGE_ROOM];
    let done = crate::assemble(listing, &mut image)?;
    Ok(cut(image, done.image))
}

pub fn optimize_jumps(asked: Settings, listing: &[u8]) -> Result<Run, Refusal> {
    let (mut out, mut image) = (vec![0; LISTING_ROOM], vec![0; IMAGE_ROOM]);
    let done = crate::optimize_jumps(asked, listing, &mut out, &mut image)?;
    Ok(Run { listing: cut(out, done.listing), rewrites: done.rewrites, image: cut(image, done.image) })
}

/// The run, and the place that each statement of the new listing stems from.
pub fn optimize_stems(asked: Settings, listing: &[u8]) -> Result<(Run, Vec<u16>), Refusal> {
    let (mut out, mut image, mut list) = (vec![0; LISTING_ROOM], vec![0; IMAGE_ROOM], vec![0; STEMS_ROOM]);
    let (done, count) = crate::optimize_stems(asked, listing, &mut out, &mut image, &mut list)?;
    let stems = list.chunks_exact(2).take(count).map(|two| u16::from_be_bytes([two[0], two[1]])).collect();
    Ok((Run { listing: cut(out, done.listing), rewrites: done.rewrites, image: cut(image, done.image) }, stems))
}

/// The lines 74, and how many need eyes.
pub fn targets(asked: Settings, listing: &[u8]) -> Result<(Vec<u8>, Targets), Refusal> {
    let mut out = vec![0; TARGETS_ROOM];
    let told = crate::targets(asked, listing, &mut out)?;
    Ok((cut(out, 45 * told.transfers), told))
}

/// The listing for people.
pub fn text(listing: &[u8]) -> Result<Vec<u8>, Refusal> {
    let mut text = vec![0; TEXT_ROOM];
    let n = crate::text(listing, &mut text)?;
    Ok(cut(text, n))
}
