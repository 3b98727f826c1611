//! Data as frames: item by item, or constant bytes packed.
use crate::expressions::number;
use crate::levels::Level;
use crate::program::{Expr, Item};
use crate::tables::*;
use crate::writer::Writer;
use crate::Stopped;

/// Shorter runs of constants between items that hold a label are written item by item.
const WORTH_PACKING: usize = 12;
/// So many zeros are a pad.
const ZEROS: usize = 8;

impl Writer<'_> {
    /// A byte is -128 to 255 in waterbear and 0 to 255 in document 01, a word likewise. A negative constant is handed over as the bits
    /// that it leaves. What holds a label and is negative is raised by half the range and put back by xor: that gives its bits, and a
    /// value below waterbear's range stays negative.
    fn item(&mut self, place: usize, expr: &Expr, width: usize) -> Result<Vec<u8>, Stopped> {
        let (mask, half): (i32, i32) = if width == 1 { (0xFF, 0x80) } else { (0xFFFF, 0x8000) };
        let value = self.values.of(expr, self.context(place)).unwrap_or(0);
        let holds = self.values.holds(expr);
        if !holds && value < 0 {
            let mut out = vec![];
            number(&mut out, value & mask);
            return Ok(out);
        }
        if value >= 0 && !(self.options.negative_items && holds && value < half) {
            return self.expression(place, expr);
        }
        let with = |operator, e: Expr, number| Expr::Two(operator, Box::new(e), Box::new(Expr::Number(number)));
        match self.fitting(place, &with(XOR, with(PLUS, expr.clone(), half), half)) {
            (out, true) => Ok(out),
            // No room for that: a value below the range would then be told only when waterbear assembles what comes back.
            _ => self.expression(place, &with(AND, expr.clone(), mask)),
        }
    }

    /// Frames of at most sixteen items.
    fn items(&mut self, place: usize, kind: u8, items: Vec<Vec<u8>>) {
        let mut bytes = vec![kind, 0];
        for item in items {
            if bytes[1] == 16 || bytes.len() + item.len() > FRAME {
                self.put(place, std::mem::replace(&mut bytes, vec![kind, 0]), 0);
            }
            bytes[1] += 1;
            bytes.extend(item);
        }
        if bytes[1] > 0 {
            self.put(place, bytes, 0);
        }
    }

    /// How far there are constants from an item on, and their bytes.
    fn constants(&self, items: &[Item], width: usize) -> (usize, Vec<u8>) {
        let mut bytes = vec![];
        for (n, item) in items.iter().enumerate() {
            match item {
                Item::Text(text) => bytes.extend(text),
                Item::Value(expr) => match self.values.constant(expr) {
                    Some(value) => bytes.extend(&value.to_le_bytes()[..width]),
                    None => return (n, bytes),
                },
            }
        }
        (items.len(), bytes)
    }

    /// Items one after the other: from the level Packed on long runs of what holds no label as bytes, what holds one as it is.
    pub(crate) fn data(&mut self, place: usize, kind: u8, all: &[Item]) -> Result<(), Stopped> {
        let width = if kind == WORDS { 2 } else { 1 };
        let held = all.iter().any(|item| matches!(item, Item::Value(expr) if self.values.holds(expr)));
        let mut items: Vec<Vec<u8>> = vec![];
        let mut rest = all;
        while !rest.is_empty() {
            let (count, bytes) = self.constants(rest, width);
            if self.options.level > Level::Whole && (bytes.len() >= WORTH_PACKING || !held) {
                self.items(place, kind, std::mem::take(&mut items));
                self.wait(place, &bytes);
                rest = &rest[count..];
                continue;
            }
            let (now, later) = rest.split_at(count.max(1));
            for item in now {
                match item {
                    Item::Text(text) => items.extend(text.iter().map(|b| vec![NUMBER, 0, 0, 0, *b])),
                    Item::Value(expr) => items.push(self.item(place, expr, width)?),
                }
            }
            rest = later;
        }
        self.items(place, kind, items);
        Ok(())
    }

    /// Constant bytes as pads for their zeros and words for the others, a byte where one is left.
    pub(crate) fn pack(&mut self, place: usize, bytes: &[u8]) {
        let mut rest = bytes;
        while !rest.is_empty() {
            let zeros = rest.iter().take_while(|b| **b == 0).count();
            if zeros >= ZEROS || zeros == rest.len() {
                self.room(place, zeros);
                rest = &rest[zeros..];
                continue;
            }
            let end = (0..rest.len().min(32)).find(|at| rest[*at..].starts_with(&[0; ZEROS])).unwrap_or(rest.len().min(32));
            self.words(place, &rest[..end]);
            rest = &rest[end..];
        }
    }

    fn words(&mut self, place: usize, bytes: &[u8]) {
        let pairs = bytes.chunks_exact(2);
        let odd = pairs.remainder();
        let mut frame = vec![WORDS, pairs.len() as u8];
        pairs.for_each(|pair| number(&mut frame, pair[0] as i32 + 256 * pair[1] as i32));
        if frame[1] > 0 {
            self.push(place, frame, 0);
        }
        if let [b] = odd {
            self.push(place, vec![BYTES, 1, NUMBER, 0, 0, 0, *b], 0);
        }
    }
}
