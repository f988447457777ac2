//! A buffer and an owner table as they are lent, with bytes around them that are not.

use std::ops::Range;

use boundary::OWNER_BYTES;

use crate::tally::Random;

const UNTOUCHED: u8 = 0xA5;
/// Bytes behind what is to be lent. A call may be lent some of them too.
pub const BEHIND: usize = 80;

/// Memory of which a part is lent, at any alignment.
#[derive(Clone, PartialEq)]
pub struct Memory {
    bytes: Vec<u8>,
    lead: usize,
    size: usize,
}

impl Memory {
    fn of(random: &mut Random, bytes: &[u8]) -> Self {
        let lead = random.below(8) as usize;
        let bytes_around = [&[UNTOUCHED; 8][..lead], bytes, &[UNTOUCHED; BEHIND]].concat();
        Self { bytes: bytes_around, lead, size: bytes.len() }
    }

    pub fn size(&self) -> usize {
        self.size
    }

    /// What is lent if nothing else is said.
    pub fn whole(&self) -> &[u8] {
        &self.bytes[self.lead..][..self.size]
    }

    /// So many bytes from the start.
    pub fn first(&mut self, count: usize) -> &mut [u8] {
        &mut self.bytes[self.lead..][..count]
    }

    /// Whether a part of what is lent has no byte but 0.
    pub fn cleared(&self, part: Range<usize>) -> bool {
        self.bytes[self.lead..][part].iter().all(|&byte| byte == 0)
    }

    /// Whether all memory is the same but for a part of what is lent.
    pub fn same_but(&self, other: &Self, part: Range<usize>) -> bool {
        let (start, end) = (self.lead + part.start, self.lead + part.end);
        self.bytes[..start] == other.bytes[..start] && self.bytes[end..] == other.bytes[end..]
    }
}

/// How many bytes of the buffer and of the table a call is lent; `None` is a null pointer.
#[derive(Clone, Copy, Debug)]
pub struct Lengths {
    pub cache: Option<usize>,
    pub owners: Option<usize>,
}

#[derive(Clone, PartialEq)]
pub struct Lent {
    pub cache: Memory,
    pub owners: Memory,
}

impl Lent {
    /// All rows are free. Their slots have any bytes, and they themselves any other words.
    pub fn empty(random: &mut Random, slots: usize, size: usize) -> Self {
        let bytes: Vec<u8> = (0..slots * size).map(|at| (at as u8).wrapping_mul(37) ^ 0x5A).collect();
        let mut owners = vec![0; slots * OWNER_BYTES];
        if random.one_in(2) {
            let words = owners.chunks_exact_mut(8).enumerate().filter(|(i, _)| i % 3 != 0);
            words.for_each(|(_, word)| word.copy_from_slice(&random.number().to_le_bytes()));
        }
        Self { cache: Memory::of(random, &bytes), owners: Memory::of(random, &owners) }
    }

    pub fn lengths(&self) -> Lengths {
        Lengths { cache: Some(self.cache.size), owners: Some(self.owners.size) }
    }

    /// The mark, the instance and the length of a row.
    pub fn row(&self, slot: usize) -> [u64; 3] {
        let row = &self.owners.whole()[slot * OWNER_BYTES..][..OWNER_BYTES];
        let word = |i: usize| u64::from_le_bytes(row[8 * i..8 * i + 8].try_into().expect("a word has eight bytes"));
        [0, 1, 2].map(word)
    }

    pub fn set_row(&mut self, slot: usize, row: [u64; 3]) {
        let bytes = row.map(u64::to_le_bytes).concat();
        self.owners.first((slot + 1) * OWNER_BYTES)[slot * OWNER_BYTES..].copy_from_slice(&bytes);
    }
}
