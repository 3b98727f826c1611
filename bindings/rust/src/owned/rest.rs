//! The answers of what libborder.a has beside the core, in vectors.

use super::cut;
use crate::{NotCompared, Refusal, Settings, DIFFERENCES_ROOM, MAP_ROOM, READ_ROOM, REPORT_ROOM, SALVAGE_ROOM, STEPS_ROOM, WHY_ROOM};

pub fn read(text: &[u8]) -> Result<Vec<u8>, Refusal> {
    let mut listing = vec![0; READ_ROOM];
    let n = crate::read(text, &mut listing)?;
    Ok(cut(listing, n))
}

pub fn read_back(image: &[u8], start: usize) -> Result<Vec<u8>, Refusal> {
    let mut listing = vec![0; READ_ROOM];
    let n = crate::read_back(image, start, &mut listing)?;
    Ok(cut(listing, n))
}

/// What is kept of a damaged listing, and the report's lines.
#[derive(Clone, Debug, PartialEq, Eq)]
pub struct Salvaged {
    pub statements: usize,
    pub listing: Vec<u8>,
    pub report: Vec<u8>,
}

pub fn salvage(text: &[u8]) -> Salvaged {
    let (mut listing, mut report) = (vec![0; SALVAGE_ROOM], vec![0; REPORT_ROOM]);
    let saved = crate::salvage(text, &mut listing, &mut report).expect("the rooms are never too short");
    Salvaged { statements: saved.statements, listing: cut(listing, saved.listing), report: cut(report, saved.report) }
}

/// The lines 70 to 73, under a pairing by places or without one.
pub fn differences(first: &[u8], second: &[u8], pairing: Option<&[u16]>) -> Result<Vec<u8>, NotCompared> {
    let mut out = vec![0; DIFFERENCES_ROOM];
    let list: Option<Vec<u8>> = pairing.map(|list| list.iter().flat_map(|entry| entry.to_be_bytes()).collect());
    let n = crate::differences(first, second, list.as_deref(), &mut out)?;
    Ok(cut(out, n))
}

/// The lines 76.
pub fn steps(asked: Settings, listing: &[u8]) -> Result<Vec<u8>, Refusal> {
    let mut out = vec![0; STEPS_ROOM];
    let n = crate::steps(asked, listing, &mut out)?;
    Ok(cut(out, 21 * n))
}

/// The lines 78 and 79.
pub fn map(asked: Settings, listing: &[u8]) -> Result<Vec<u8>, Refusal> {
    let mut out = vec![0; MAP_ROOM];
    let n = crate::map(asked, listing, &mut out)?;
    Ok(cut(out, 37 * n))
}

/// The lines 75.
pub fn why(asked: Settings, listing: &[u8]) -> Result<Vec<u8>, Refusal> {
    let mut out = vec![0; WHY_ROOM];
    let n = crate::why(asked, listing, &mut out)?;
    Ok(cut(out, 27 * n))
}
