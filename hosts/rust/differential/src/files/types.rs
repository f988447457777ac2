//! Type entries of every kind, each beside the row that it stands for.

use super::dice::{Dice, Freedom};
use super::plan::Version;
use super::wire::{Wire, RARE};

/// All tags: sixteen scalars and Token, then the kinds that have fields.
pub const TAGS: [u64; 24] = [0, 1, 2, 3, 4, 5, 6, 7, 8, 9, 10, 11, 17, 18, 19, 22, 0x82, 12, 13, 14, 15, 16, 20, 21];
const PLAIN_TAGS: u64 = 17;

/// An entry on the wire and its row on the sheet, which grow together.
struct Entry<'d, 'r> {
    dice: &'d mut Dice<'r>,
    wire: Wire,
    row: Vec<u64>,
    types: u64,
}

impl Entry<'_, '_> {
    fn varint(&mut self, value: u64) {
        self.wire.varint(self.dice, value);
        self.row.push(value);
    }

    /// An index, mostly of a type that is there.
    fn index(&mut self) {
        let index = match self.dice.below(16) {
            0 => self.dice.number(),
            _ => self.dice.below(self.types + 1),
        };
        self.varint(index);
    }

    fn count(&mut self) -> u64 {
        let count = match self.dice.below(4) {
            _ if self.dice.takes(Freedom::LongTypeList, RARE) => 200,
            0 => 0,
            _ => self.dice.below(4),
        };
        self.varint(count);
        count
    }

    /// Flags that are there or 0. Only bit 0 has a meaning here.
    fn flags(&mut self, there: bool) -> u64 {
        if !there {
            self.row.push(0);
            return 0;
        }
        let flags = if self.dice.one_in(4) { self.dice.number() } else { self.dice.below(4) };
        self.varint(flags);
        flags
    }

    fn numbers(&mut self, width: usize) {
        for _ in 0..self.count() {
            let number = match self.dice.below(6) {
                0 => 1 << (8 * width - 1),
                1 => self.dice.word(),
                _ => self.dice.below(300),
            };
            let number = number & (u64::MAX >> (64 - 8 * width));
            self.wire.fixed(number, width);
            self.row.push(number);
        }
    }

    fn indices(&mut self) {
        for _ in 0..self.count() {
            self.index();
        }
    }

    fn byte_if(&mut self, flags: u64) {
        let byte = if flags & 1 != 0 { self.dice.word() as u8 } else { 0 };
        if flags & 1 != 0 {
            self.wire.byte(byte);
        }
        self.row.push(byte.into());
    }

    fn old_partition_view(&mut self) {
        let present = self.dice.one_in(2);
        self.row.push(present.into());
        self.numbers(4);
        self.index();
        self.numbers(4);
        self.wire.byte(if present { 1 + self.dice.below(255) as u8 } else { 0 });
        self.flags(present);
    }

    fn partition_view(&mut self) {
        let flags = self.flags(true);
        self.numbers(4);
        self.index();
        self.numbers(4);
        self.byte_if(flags);
    }

    fn tensor_view(&mut self, version: Version) {
        let flags = self.flags(version.since(13, 4));
        self.index();
        self.numbers(8);
        self.numbers(8);
        self.byte_if(flags);
    }

    fn strided_view(&mut self) {
        let flags = self.flags(true);
        self.numbers(4);
        self.numbers(4);
        self.index();
        self.numbers(4);
        self.byte_if(flags);
    }

    fn gather_scatter_view(&mut self) {
        let flags = self.flags(true);
        self.numbers(4);
        self.index();
        self.index();
        self.byte_if(flags);
    }

    fn pointer(&mut self, version: Version) {
        let flags = self.flags(version.since(13, 4));
        self.index();
        self.byte_if(flags);
    }

    fn fields(&mut self, tag: u64, version: Version) {
        match tag {
            12 => self.pointer(version),
            13 => {
                self.index();
                self.numbers(8);
            }
            14 => self.tensor_view(version),
            15 if version.since(13, 3) => self.partition_view(),
            15 => self.old_partition_view(),
            16 => {
                self.indices();
                self.indices();
            }
            20 => self.gather_scatter_view(),
            21 => self.strided_view(),
            _ => {}
        }
    }
}

/// A tag, half of the time one that has fields.
pub fn tag(dice: &mut Dice) -> u64 {
    let tags = if dice.one_in(2) { &TAGS[..] } else { &TAGS[PLAIN_TAGS as usize..] };
    tags[dice.below(tags.len() as u64) as usize]
}

/// An entry with this tag in a table of so many types, now and then with bytes left behind its fields, and its row.
pub fn entry(dice: &mut Dice, tag: u64, version: Version, types: u64) -> (Vec<u8>, Vec<u64>) {
    let mut entry = Entry { dice, wire: Wire::default(), row: Vec::new(), types };
    entry.varint(tag);
    entry.fields(tag, version);
    if entry.dice.takes(Freedom::LeftInEntry, 8) {
        entry.wire.byte(entry.dice.word() as u8);
        entry.wire.some_bytes(entry.dice, 2);
    }
    (entry.wire.0, entry.row)
}
