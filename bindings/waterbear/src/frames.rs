//! Frames of a listing with source lines: as text and back, and whether they fit.
use crate::tables::{MARK, STATEMENTS, TOTAL};

pub struct Frame {
    /// Without its source line.
    pub bytes: Vec<u8>,
    /// The statement that it is or is a part of; a run's first one.
    pub statement: usize,
    pub line: u32,
    /// Where the target begins in a transfer.
    pub target: usize,
}

/// What a frame adds to the total: its source line has four bytes.
fn length(frame: &Frame) -> usize {
    frame.bytes.len() + 4
}

pub fn total(frames: &[Frame]) -> usize {
    frames.iter().map(length).sum()
}

/// The first frame that passes a limit.
pub fn first_beyond(frames: &[Frame]) -> Option<&Frame> {
    let mut sum = 0;
    frames.iter().enumerate().find_map(|(place, frame)| {
        sum += length(frame);
        (place >= STATEMENTS || sum > TOTAL).then_some(frame)
    })
}

pub fn listing(frames: &[Frame]) -> Vec<u8> {
    const DIGITS: &[u8; 16] = b"0123456789ABCDEF";
    let mut text = MARK.as_bytes().to_vec();
    text.push(b'\n');
    for frame in frames {
        let (kind, rest) = frame.bytes.split_at(1);
        for b in kind.iter().chain(&frame.line.to_be_bytes()).chain(rest) {
            text.extend([DIGITS[(b >> 4) as usize], DIGITS[(b & 15) as usize]]);
        }
        text.push(b'\n');
    }
    text
}

/// The frames of a listing with source lines, these left out.
pub fn frames_of(text: &[u8]) -> Vec<Vec<u8>> {
    let digit = |c: u8| if c <= b'9' { c - b'0' } else { c - b'A' + 10 };
    let lines = text.split(|c| *c == b'\n').skip(1).filter(|line| !line.is_empty());
    lines
        .map(|line| {
            let mut bytes: Vec<u8> = line.chunks(2).map(|pair| digit(pair[0]) * 16 + digit(pair[1])).collect();
            bytes.drain(1..5);
            bytes
        })
        .collect()
}
