//! Numbers on the wire, written one after the other, each in its shortest spelling.

use crate::cursor::FILL;
use crate::refusal::{stop, Stop, START};

/// The pool, of which rows are taken from the front. It need not be lent where only sizes are asked for.
pub struct Pool<'p>(pub Option<&'p [u8]>);

/// Bytes that grow. Positions count from their start. The rows of a pool that is not lent are counted only, and they
/// may be longer than anything in memory.
#[derive(Default)]
pub struct Wire {
    bytes: Vec<u8>,
    counted: u128,
}

impl Wire {
    pub fn size(&self) -> u128 {
        self.bytes.len() as u128 + self.counted
    }

    /// All bytes, if none were counted only.
    pub fn into_bytes(self) -> Vec<u8> {
        self.bytes
    }

    pub fn byte(&mut self, byte: u8) {
        self.bytes.push(byte);
    }

    pub fn bytes(&mut self, bytes: &[u8]) {
        self.bytes.extend_from_slice(bytes);
    }

    pub fn append(&mut self, other: &Self) {
        self.bytes(&other.bytes);
        self.counted += other.counted;
    }

    /// The next row of the pool.
    pub fn pooled(&mut self, pool: &mut Pool, size: u64) {
        match &mut pool.0 {
            Some(pool) => {
                let (row, left) = pool.split_at(size as usize);
                self.bytes(row);
                *pool = left;
            }
            None => self.counted += u128::from(size),
        }
    }

    pub fn varint(&mut self, value: impl Into<u128>) {
        let mut left = value.into();
        while left >= 0x80 {
            self.byte(left as u8 | 0x80);
            left >>= 7;
        }
        self.byte(left as u8);
    }

    pub fn varints(&mut self, values: &[u64]) {
        values.iter().for_each(|&value| self.varint(value));
    }

    /// A little-endian number of `width` bytes.
    pub fn fixed(&mut self, value: u64, width: usize) {
        self.bytes(&value.to_le_bytes()[..width]);
    }

    pub fn padding(&mut self, alignment: u128) {
        for _ in 0..(alignment - self.size() % alignment) % alignment {
            self.byte(FILL);
        }
    }

    /// A count, padding to `width`, and as many numbers of `width` bytes, if they fit.
    pub fn padded(&mut self, width: usize, numbers: &[u128]) -> Result<(), Stop> {
        self.varint(numbers.len() as u128);
        self.padding(width as u128);
        for &number in numbers {
            if number >> (8 * width) != 0 {
                return Err(stop(START));
            }
            self.fixed(number as u64, width);
        }
        Ok(())
    }
}
