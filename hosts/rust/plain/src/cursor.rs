//! Numbers on the wire, read one after the other.

use crate::refusal::{stop, Detail, Stop, OVERLONG, PADDING, SHORT};

/// The byte that fills paddings.
pub const FILL: u8 = 0xCB;

/// A place in some data. Positions count from the data's start.
pub struct Cursor<'a> {
    data: &'a [u8],
    at: usize,
}

impl<'a> Cursor<'a> {
    pub fn new(data: &'a [u8]) -> Self {
        Self { data, at: 0 }
    }

    pub fn at(&self) -> usize {
        self.at
    }

    pub fn bytes(&mut self, count: u64) -> Result<&'a [u8], Stop> {
        let run = usize::try_from(count).ok().and_then(|count| self.data[self.at..].get(..count)).ok_or_else(|| {
            let wraps = (self.at as u64).checked_add(count).is_none();
            Stop { number: SHORT, detail: if wraps { Detail::EndWraps } else { Detail::None } }
        })?;
        self.at += run.len();
        Ok(run)
    }

    pub fn byte(&mut self) -> Result<u8, Stop> {
        let byte = *self.data.get(self.at).ok_or(stop(SHORT))?;
        self.at += 1;
        Ok(byte)
    }

    /// Seven bits a byte, low first. Of a tenth byte only the lowest bit stays.
    pub fn varint(&mut self) -> Result<u64, Stop> {
        let mut value = 0;
        for shift in (0..70).step_by(7) {
            let byte = self.byte()?;
            value |= u64::from(byte & 0x7F) << shift;
            if byte < 0x80 {
                #[cfg(feature = "tally")]
                crate::tally::count(shift / 7 + 1);
                return Ok(value);
            }
        }
        Err(stop(OVERLONG))
    }

    /// A little-endian number of `width` bytes.
    pub fn fixed(&mut self, width: u64) -> Result<u64, Stop> {
        let bytes = self.bytes(width)?;
        Ok(bytes.iter().rev().fold(0, |number, &byte| number << 8 | u64::from(byte)))
    }

    pub fn padding(&mut self, alignment: u64) -> Result<(), Stop> {
        if alignment < 2 {
            return Ok(());
        }
        for _ in 0..(alignment - self.at as u64 % alignment) % alignment {
            if self.byte()? != FILL {
                return Err(stop(PADDING));
            }
        }
        Ok(())
    }

    /// `count` items. Nothing is reserved for them: a count says nothing of how many there are.
    pub fn times<T>(&mut self, count: u64, mut item: impl FnMut(&mut Self) -> Result<T, Stop>) -> Result<Vec<T>, Stop> {
        let mut items = Vec::new();
        for _ in 0..count {
            items.push(item(self)?);
        }
        Ok(items)
    }

    /// A count, padding to `width`, and as many numbers of `width` bytes.
    pub fn padded(&mut self, width: u64) -> Result<Vec<u64>, Stop> {
        let count = self.varint()?;
        self.padding(width)?;
        self.times(count, |cursor| cursor.fixed(width))
    }

    /// All bytes that are left, and where they begin.
    pub fn rest(&self) -> (usize, &'a [u8]) {
        (self.at, &self.data[self.at..])
    }
}
