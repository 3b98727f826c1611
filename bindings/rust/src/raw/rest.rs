//! What libborder.a has beside the core: texts for people, images read back, differences, what a run did and left, and C-24's store.

use super::{tell, Reply, Told};
use crate::Settings;

#[repr(C)]
pub struct ReadReply {
    pub told: Told,
    pub listing: u64,
}

#[repr(C)]
pub struct SavedReply {
    pub told: Told,
    pub statements: u64,
    pub listing: u64,
    pub report: u64,
}

#[repr(C)]
pub struct DiffersReply {
    pub told: Told,
    pub whose: u64,
    pub text: u64,
}

#[repr(C)]
pub struct AuditReply {
    pub told: Told,
    pub finding: u64,
    pub address: u64,
    pub wanted: u64,
    pub shipped: u64,
    pub owned: u64,
    pub statement: u64,
    pub offset: u64,
}

#[repr(C)]
pub struct StepsReply {
    pub told: Told,
    pub lines: u64,
    pub rewrites: u64,
}

#[repr(C)]
pub struct MapReply {
    pub told: Told,
    pub lines: u64,
    pub rows: u64,
}

#[repr(C)]
pub struct NumberedReply {
    pub told: Told,
    pub edition: u64,
}

#[repr(C)]
pub struct FoundReply {
    pub told: Told,
    pub edition: u64,
    pub comments: u64,
    pub callf: u64,
    pub folds: u64,
}

#[repr(C)]
pub struct ShownReply {
    pub told: Told,
    pub held: u64,
    pub family: u64,
    pub edition: u64,
    pub comments: u64,
    pub callf: u64,
    pub folds: u64,
}

extern "C" {
    fn mortarbee_read_back(image: *const u8, image_len: usize, start: usize, listing: *mut u8, listing_len: usize) -> Reply;
    fn mortarbee_read(text: *const u8, text_len: usize, listing: *mut u8, listing_len: usize) -> ReadReply;
    fn mortarbee_salvage(
        text: *const u8,
        text_len: usize,
        listing: *mut u8,
        listing_len: usize,
        report: *mut u8,
        report_len: usize,
    ) -> SavedReply;
    fn mortarbee_differences(
        first: *const u8,
        first_len: usize,
        second: *const u8,
        second_len: usize,
        given: u8,
        pairing: *const u8,
        pairing_len: usize,
        out: *mut u8,
        out_len: usize,
    ) -> DiffersReply;
    fn mortarbee_audit(
        comments: u8,
        callf: u8,
        folds: u8,
        listing: *const u8,
        listing_len: usize,
        shipped: *const u8,
        shipped_len: usize,
    ) -> AuditReply;
    fn mortarbee_steps(
        comments: u8,
        callf: u8,
        folds: u8,
        listing: *const u8,
        listing_len: usize,
        out: *mut u8,
        out_len: usize,
    ) -> StepsReply;
    fn mortarbee_map(comments: u8, callf: u8, folds: u8, listing: *const u8, listing_len: usize, out: *mut u8, out_len: usize) -> MapReply;
    fn mortarbee_why(
        comments: u8,
        callf: u8,
        folds: u8,
        listing: *const u8,
        listing_len: usize,
        out: *mut u8,
        out_len: usize,
    ) -> StepsReply;
    fn mortarbee_add_edition(room: *mut u8, room_len: usize, family: u16, comments: u8, callf: u8, folds: u8) -> NumberedReply;
    fn mortarbee_get_edition(room: *const u8, room_len: usize, family: u16, edition: u16) -> FoundReply;
    fn mortarbee_get_newest(room: *const u8, room_len: usize, family: u16) -> FoundReply;
    fn mortarbee_show_place(room: *const u8, room_len: usize, k: usize) -> ShownReply;
    fn mortarbee_drop_old(room: *mut u8, room_len: usize, family: u16) -> NumberedReply;
    fn mortarbee_optimize_jumps_under(
        store: *const u8,
        store_len: usize,
        family: u16,
        edition: u16,
        listing: *const u8,
        listing_len: usize,
        out: *mut u8,
        out_len: usize,
        image: *mut u8,
        image_len: usize,
    ) -> Reply;
}

pub fn read_back(image: &[u8], start: usize, listing: &mut [u8]) -> Reply {
    unsafe { mortarbee_read_back(image.as_ptr(), image.len(), start, listing.as_mut_ptr(), listing.len()) }
}

pub fn read(text: &[u8], listing: &mut [u8]) -> ReadReply {
    unsafe { mortarbee_read(text.as_ptr(), text.len(), listing.as_mut_ptr(), listing.len()) }
}

pub fn salvage(text: &[u8], listing: &mut [u8], report: &mut [u8]) -> SavedReply {
    unsafe { mortarbee_salvage(text.as_ptr(), text.len(), listing.as_mut_ptr(), listing.len(), report.as_mut_ptr(), report.len()) }
}

pub fn differences(first: &[u8], second: &[u8], pairing: Option<&[u8]>, out: &mut [u8]) -> DiffersReply {
    let (given, list) = (pairing.is_some() as u8, pairing.unwrap_or(&[]));
    unsafe {
        mortarbee_differences(
            first.as_ptr(),
            first.len(),
            second.as_ptr(),
            second.len(),
            given,
            list.as_ptr(),
            list.len(),
            out.as_mut_ptr(),
            out.len(),
        )
    }
}

pub fn audit(asked: Settings, listing: &[u8], shipped: &[u8]) -> AuditReply {
    let (comments, callf, folds) = (asked.comments as u8, asked.callf as u8, asked.folds as u8);
    unsafe { mortarbee_audit(comments, callf, folds, listing.as_ptr(), listing.len(), shipped.as_ptr(), shipped.len()) }
}

pub fn steps(asked: Settings, listing: &[u8], out: &mut [u8]) -> StepsReply {
    tell(mortarbee_steps, asked, listing, out)
}

pub fn map(asked: Settings, listing: &[u8], out: &mut [u8]) -> MapReply {
    tell(mortarbee_map, asked, listing, out)
}

pub fn why(asked: Settings, listing: &[u8], out: &mut [u8]) -> StepsReply {
    tell(mortarbee_why, asked, listing, out)
}

pub fn add_edition(store: &mut [u8], family: u16, settings: Settings) -> NumberedReply {
    let (comments, callf, folds) = (settings.comments as u8, settings.callf as u8, settings.folds as u8);
    unsafe { mortarbee_add_edition(store.as_mut_ptr(), store.len(), family, comments, callf, folds) }
}

pub fn get_edition(store: &[u8], family: u16, edition: u16) -> FoundReply {
    unsafe { mortarbee_get_edition(store.as_ptr(), store.len(), family, edition) }
}

pub fn get_newest(store: &[u8], family: u16) -> FoundReply {
    unsafe { mortarbee_get_newest(store.as_ptr(), store.len(), family) }
}

pub fn show_place(store: &[u8], k: usize) -> ShownReply {
    unsafe { mortarbee_show_place(store.as_ptr(), store.len(), k) }
}

pub fn drop_old(store: &mut [u8], family: u16) -> NumberedReply {
    unsafe { mortarbee_drop_old(store.as_mut_ptr(), store.len(), family) }
}

pub fn optimize_jumps_under(store: &[u8], family: u16, edition: u16, listing: &[u8], out: &mut [u8], image: &mut [u8]) -> Reply {
    unsafe {
        mortarbee_optimize_jumps_under(
            store.as_ptr(),
            store.len(),
            family,
            edition,
            listing.as_ptr(),
            listing.len(),
            out.as_mut_ptr(),
            out.len(),
            image.as_mut_ptr(),
            image.len(),
        )
    }
}
