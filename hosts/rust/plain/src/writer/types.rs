//! Type entries, from rows that are well-formed.

use super::wire::Wire;
use crate::container::Version;
use crate::fields::{fields, Field};

/// The words of a row, and the entry that they become.
struct Entry<'a> {
    words: std::slice::Iter<'a, u64>,
    wire: Wire,
}

impl Entry<'_> {
    fn word(&mut self) -> u64 {
        *self.words.next().expect("a well-formed row has the fields of its tag")
    }

    fn varint(&mut self) -> u64 {
        let value = self.word();
        self.wire.varint(value);
        value
    }

    fn numbers(&mut self, width: u8) {
        for _ in 0..self.varint() {
            let number = self.word();
            self.wire.fixed(number, width.into());
        }
    }

    fn indices(&mut self) {
        for _ in 0..self.varint() {
            self.varint();
        }
    }

    fn fields(&mut self, fields: &[Field]) {
        let mut flags = 0;
        for field in fields {
            match field {
                Field::Flags => flags = self.varint(),
                Field::LateFlags => flags = self.word(),
                Field::Presence => self.wire.byte(flags as u8),
                Field::Index => drop(self.varint()),
                Field::Numbers(width) => self.numbers(*width),
                Field::Indices => self.indices(),
                Field::LastByte if flags & 1 != 0 => {
                    let byte = self.word() as u8;
                    self.wire.byte(byte);
                }
                Field::LastVarint if flags & 1 != 0 => drop(self.varint()),
                Field::NoFlags | Field::LastByte | Field::LastVarint => drop(self.word()),
            }
        }
    }
}

/// The entry of a row, which is given without its count.
pub fn entry(row: &[u64], version: Version) -> Wire {
    let mut entry = Entry { words: row.iter(), wire: Wire::default() };
    let tag = entry.varint();
    entry.fields(fields(tag, version).expect("a well-formed row has a known tag"));
    entry.wire
}
