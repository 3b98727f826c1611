//! The bytes of a line of upper-case digit pairs, taken one field after the other.

use super::NoSuchLine;

pub struct Digits<'a>(&'a str);

impl<'a> Digits<'a> {
    pub fn of(line: &'a str) -> Result<Self, NoSuchLine> {
        let is_good = line.len() % 2 == 0 && line.bytes().all(|c| matches!(c, b'0'..=b'9' | b'A'..=b'F'));
        if is_good {
            Ok(Digits(line))
        } else {
            Err(NoSuchLine)
        }
    }

    /// Behind a first byte, which has to be this one.
    pub fn behind(line: &'a str, kind: u8) -> Result<Self, NoSuchLine> {
        let mut digits = Digits::of(line)?;
        if digits.byte()? == kind {
            Ok(digits)
        } else {
            Err(NoSuchLine)
        }
    }

    fn take(&mut self, bytes: usize) -> Result<&'a str, NoSuchLine> {
        let (front, rest) = self.0.split_at_checked(2 * bytes).ok_or(NoSuchLine)?;
        self.0 = rest;
        Ok(front)
    }

    fn number(&mut self, bytes: usize) -> Result<u32, NoSuchLine> {
        u32::from_str_radix(self.take(bytes)?, 16).map_err(|_| NoSuchLine)
    }

    pub fn byte(&mut self) -> Result<u8, NoSuchLine> {
        self.number(1).map(|n| n as u8)
    }

    pub fn two(&mut self) -> Result<u16, NoSuchLine> {
        self.number(2).map(|n| n as u16)
    }

    pub fn three(&mut self) -> Result<u32, NoSuchLine> {
        self.number(3)
    }

    pub fn four(&mut self) -> Result<u32, NoSuchLine> {
        self.number(4)
    }

    /// So many bytes, in digits.
    pub fn bytes(&mut self, count: usize) -> Result<String, NoSuchLine> {
        self.take(count).map(String::from)
    }

    /// All that is left, which is something.
    pub fn rest(&mut self) -> Result<String, NoSuchLine> {
        if self.0.is_empty() {
            return Err(NoSuchLine);
        }
        self.bytes(self.0.len() / 2)
    }

    /// The value, if nothing is left.
    pub fn end<T>(self, value: T) -> Result<T, NoSuchLine> {
        if self.0.is_empty() {
            Ok(value)
        } else {
            Err(NoSuchLine)
        }
    }
}
