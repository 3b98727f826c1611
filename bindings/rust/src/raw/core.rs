//! What libborder_core.a has: the main job, and what it needs to be told.

use super::{tell, CountedReply, PrintedReply, Reply, SitsReply, StemsReply, TargetsReply};
use crate::{Refusal, Settings, IMAGE_ROOM, LINE_ROOM, PAGE_ROOM, POSITIONS};

extern "C" {
    fn mortarbee_assemble(listing: *const u8, listing_len: usize, image: *mut u8, image_len: usize) -> Reply;
    fn mortarbee_optimize_jumps(
        comments: u8,
        callf: u8,
        folds: u8,
        listing: *const u8,
        listing_len: usize,
        out: *mut u8,
        out_len: usize,
        image: *mut u8,
        image_len: usize,
    ) -> Reply;
    fn mortarbee_stems(
        comments: u8,
        callf: u8,
        folds: u8,
        listing: *const u8,
        listing_len: usize,
        out: *mut u8,
        out_len: usize,
        image: *mut u8,
        image_len: usize,
        list: *mut u8,
        list_len: usize,
    ) -> StemsReply;
    fn mortarbee_targets(
        comments: u8,
        callf: u8,
        folds: u8,
        listing: *const u8,
        listing_len: usize,
        out: *mut u8,
        out_len: usize,
    ) -> TargetsReply;
    fn mortarbee_where_sits(listing: *const u8, listing_len: usize, n: usize) -> SitsReply;
    fn mortarbee_print_run(
        comments: u8,
        callf: u8,
        folds: u8,
        listing: *const u8,
        listing_len: usize,
        page: *mut [u8; PAGE_ROOM],
        image: *mut [u8; IMAGE_ROOM],
    ) -> PrintedReply;
    fn mortarbee_refusal_line(number: u8, place: u16, argument: u8, amount: i32, line: *mut [u8; LINE_ROOM]);
    fn mortarbee_check(listing: *const u8, listing_len: usize) -> CountedReply;
    fn mortarbee_positions(listing: *const u8, listing_len: usize, positions: *mut [u32; POSITIONS]) -> CountedReply;
    fn mortarbee_text(listing: *const u8, listing_len: usize, text: *mut u8, text_len: usize) -> Reply;
}

pub fn assemble(listing: &[u8], image: &mut [u8]) -> Reply {
    unsafe { mortarbee_assemble(listing.as_ptr(), listing.len(), image.as_mut_ptr(), image.len()) }
}

pub fn optimize_jumps(asked: Settings, listing: &[u8], out: &mut [u8], image: &mut [u8]) -> Reply {
    unsafe {
        mortarbee_optimize_jumps(
            asked.comments as u8,
            asked.callf as u8,
            asked.folds as u8,
            listing.as_ptr(),
            listing.len(),
            out.as_mut_ptr(),
            out.len(),
            image.as_mut_ptr(),
            image.len(),
        )
    }
}

pub fn stems(asked: Settings, listing: &[u8], out: &mut [u8], image: &mut [u8], list: &mut [u8]) -> StemsReply {
    unsafe {
        mortarbee_stems(
            asked.comments as u8,
            asked.callf as u8,
            asked.folds as u8,
            listing.as_ptr(),
            listing.len(),
            out.as_mut_ptr(),
            out.len(),
            image.as_mut_ptr(),
            image.len(),
            list.as_mut_ptr(),
            list.len(),
        )
    }
}

pub fn targets(asked: Settings, listing: &[u8], out: &mut [u8]) -> TargetsReply {
    tell(mortarbee_targets, asked, listing, out)
}

pub fn where_sits(listing: &[u8], n: usize) -> SitsReply {
    unsafe { mortarbee_where_sits(listing.as_ptr(), listing.len(), n) }
}

pub fn print_run(asked: Settings, listing: &[u8], page: &mut [u8; PAGE_ROOM], image: &mut [u8; IMAGE_ROOM]) -> PrintedReply {
    let (comments, callf, folds) = (asked.comments as u8, asked.callf as u8, asked.folds as u8);
    unsafe { mortarbee_print_run(comments, callf, folds, listing.as_ptr(), listing.len(), page, image) }
}

/// A refusal's numbers fit their fields: those of document 01's line have these widths.
pub fn refusal_line(refusal: &Refusal, line: &mut [u8; LINE_ROOM]) {
    unsafe { mortarbee_refusal_line(refusal.number, refusal.place as u16, refusal.argument as u8, refusal.amount, line) }
}

pub fn check(listing: &[u8]) -> CountedReply {
    unsafe { mortarbee_check(listing.as_ptr(), listing.len()) }
}

pub fn positions(listing: &[u8], positions: &mut [u32; POSITIONS]) -> CountedReply {
    unsafe { mortarbee_positions(listing.as_ptr(), listing.len(), positions) }
}

pub fn text(listing: &[u8], text: &mut [u8]) -> Reply {
    unsafe { mortarbee_text(listing.as_ptr(), listing.len(), text.as_mut_ptr(), text.len()) }
}
