//! The archive's functions as mortarbee.h has them, each behind a safe one that takes slices. This folder and `streams` are the only
//! places with `unsafe`.
//!
//! A slice crosses as its pointer and its length. A reference to a slice is never null, and `&mut` never overlaps: that is all that the
//! archive asks. An array crosses as its pointer alone, since its length is its type.

mod core; // what libborder_core.a has
#[cfg(feature = "all")]
mod rest; // what libborder.a has beside it

pub use self::core::*;
#[cfg(feature = "all")]
pub use rest::*;

use crate::{Done, Refusal, Settings};

/// A function that takes the settings of a run, a listing and a room.
type Telling<R> = unsafe extern "C" fn(u8, u8, u8, *const u8, usize, *mut u8, usize) -> R;

/// Only functions of the archive are handed over.
fn tell<R>(entry: Telling<R>, asked: Settings, listing: &[u8], out: &mut [u8]) -> R {
    let (comments, callf, folds) = (asked.comments as u8, asked.callf as u8, asked.folds as u8);
    unsafe { entry(comments, callf, folds, listing.as_ptr(), listing.len(), out.as_mut_ptr(), out.len()) }
}

/// The four numbers that each answer of mortarbee.h begins with: a struct in a struct lies as its fields do.
#[repr(C)]
pub struct Told {
    number: u64,
    place: u64,
    argument: u64,
    amount: i64,
}

impl Told {
    /// What was asked for, unless it is refused.
    pub fn unless<T>(self, it: T) -> Result<T, Refusal> {
        if self.number == 0 {
            return Ok(it);
        }
        Err(Refusal { number: self.number as u8, place: self.place as usize, argument: self.argument as usize, amount: self.amount as i32 })
    }
}

#[repr(C)]
pub struct Reply {
    told: Told,
    listing: u64,
    rewrites: u64,
    image: u64,
}

impl Reply {
    pub fn done(self) -> Result<Done, Refusal> {
        self.told.unless(Done { listing: self.listing as usize, rewrites: self.rewrites as usize, image: self.image as usize })
    }
}

#[repr(C)]
pub struct SitsReply {
    pub told: Told,
    pub address: u64,
}

#[repr(C)]
pub struct StemsReply {
    pub told: Told,
    pub listing: u64,
    pub rewrites: u64,
    pub image: u64,
    pub stems: u64,
}

#[repr(C)]
pub struct TargetsReply {
    pub told: Told,
    pub lines: u64,
    pub transfers: u64,
    pub marked: u64,
}

#[repr(C)]
pub struct PrintedReply {
    pub told: Told,
    pub page: u64,
    pub listing: u64,
    pub rewrites: u64,
    pub image: u64,
}

#[repr(C)]
pub struct CountedReply {
    pub told: Told,
    pub statements: u64,
}
