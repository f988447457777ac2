//! Writes numbers in any spelling that a reader has to take.

use super::dice::{Dice, Freedom};

/// What makes a file long is done once in so many times.
pub const RARE: u64 = 400;

/// The byte that fills paddings.
pub const FILL: u8 = 0xCB;

/// Bytes that grow. Positions count from their start.
#[derive(Default)]
pub struct Wire(pub Vec<u8>);

impl Wire {
    pub fn byte(&mut self, byte: u8) {
        self.0.push(byte);
    }

    pub fn bytes(&mut self, bytes: &[u8]) {
        self.0.extend_from_slice(bytes);
    }

    /// Up to `most` bytes of any value.
    pub fn some_bytes(&mut self, dice: &mut Dice, most: u64) {
        let size = dice.below(most + 1);
        self.any_bytes(dice, size);
    }

    /// So many bytes of any value.
    pub fn any_bytes(&mut self, dice: &mut Dice, size: u64) {
        let end = self.0.len() + size as usize;
        while self.0.len() < end {
            let word = dice.word().to_le_bytes();
            self.bytes(&word[..word.len().min(end - self.0.len())]);
        }
    }

    /// Hundreds of bytes of any value, if that freedom is taken.
    pub fn long_run(&mut self, dice: &mut Dice, freedom: Freedom) {
        if dice.takes(freedom, RARE) {
            let size = 100 + dice.below(900);
            self.any_bytes(dice, size);
        }
    }

    /// Mostly the shortest spelling. In a tenth byte the bits that do not count are any.
    pub fn varint(&mut self, dice: &mut Dice, value: u64) {
        let shortest = (1..10).find(|&size| value >> (7 * size) == 0).unwrap_or(10);
        let longer = shortest < 10 && dice.takes(Freedom::Longer, 8);
        let size = if longer { shortest + 1 + dice.below(10 - shortest) } else { shortest };
        for i in 0..size {
            let spare = if i == 9 && dice.takes(Freedom::TenthByte, 2) { dice.word() as u8 & 0x7E } else { 0 };
            let more = if i + 1 < size { 0x80 } else { 0 };
            self.byte((value >> (7 * i)) as u8 & 0x7F | spare | more);
        }
    }

    /// A little-endian number of `width` bytes.
    pub fn fixed(&mut self, value: u64, width: usize) {
        self.bytes(&value.to_le_bytes()[..width]);
    }

    pub fn padding(&mut self, alignment: u64) {
        let size = self.0.len().next_multiple_of(alignment.max(1) as usize);
        self.0.resize(size, FILL);
    }
}
