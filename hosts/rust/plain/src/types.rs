//! The Type section: a row for each entry, by the fields of its tag.

use std::ops::Range;

use crate::container::Version;
use crate::cursor::Cursor;
use crate::entries;
use crate::fields::{fields, Field};
use crate::manner::Manner;
use crate::refusal::{Detail, Stop, TYPE_TAG};
use crate::sheet::Table;

/// Where a row has its flags: behind the tag.
const FLAGS: usize = 1;
/// What decoder.rs reserves for the name of a type.
const NAME: u64 = 24;

/// An entry's fields and the row that they become.
struct Row<'a, 'm, M> {
    wire: Cursor<'a>,
    words: Vec<u64>,
    manner: &'m mut M,
}

/// A refusal inside a type entry.
fn within(stop: Stop) -> Stop {
    Stop { detail: Detail::TypeEntry, ..stop }
}

impl<M: Manner> Row<'_, '_, M> {
    /// What was read. What is missing counts as 0 in a manner that reads on.
    fn or_zero<T: Default>(&mut self, read: Result<T, Stop>) -> Result<T, Stop> {
        read.or_else(|stop| self.manner.over(within(stop)).map(|()| T::default()))
    }

    fn byte(&mut self) -> Result<u8, Stop> {
        let read = self.wire.byte();
        self.or_zero(read)
    }

    fn varint(&mut self) -> Result<u64, Stop> {
        let read = self.wire.varint();
        let value = self.or_zero(read)?;
        self.words.push(value);
        Ok(value)
    }

    fn numbers(&mut self, width: u8) -> Result<(), Stop> {
        let count = self.varint()?;
        self.manner.reserve(count, width.into())?;
        for _ in 0..count {
            let read = self.wire.fixed(width.into());
            let number = self.or_zero(read)?;
            self.words.push(number);
        }
        Ok(())
    }

    fn indices(&mut self) -> Result<(), Stop> {
        let count = self.varint()?;
        self.manner.reserve(count, NAME)?;
        for _ in 0..count {
            self.varint()?;
        }
        Ok(())
    }

    fn fields(&mut self, fields: &[Field]) -> Result<(), Stop> {
        let mut flags = 0;
        for field in fields {
            match field {
                Field::Flags => flags = self.varint()?,
                Field::Index => {
                    self.varint()?;
                }
                Field::Numbers(width) => self.numbers(*width)?,
                Field::Indices => self.indices()?,
                Field::Presence => {
                    flags = u64::from(self.byte()? != 0);
                    self.words[FLAGS] = flags;
                }
                Field::LastByte if flags & 1 != 0 => {
                    let byte = self.byte()?;
                    self.words.push(byte.into());
                }
                Field::LastVarint if flags & 1 != 0 => {
                    self.varint()?;
                }
                Field::NoFlags | Field::LateFlags | Field::LastByte | Field::LastVarint => self.words.push(0),
            }
        }
        Ok(())
    }

    /// The tag and its fields. In a manner that reads on, a tag that cannot be read leaves a row without words, and one
    /// that is not known stands alone.
    fn entry(&mut self, version: Version) -> Result<(), Stop> {
        let mut tag = match self.wire.varint() {
            Ok(tag) => tag,
            Err(stop) => return self.manner.over(within(stop)),
        };
        if tag > u8::MAX.into() {
            self.manner.over(Stop { number: TYPE_TAG, detail: Detail::WideTag })?;
            tag &= u64::from(u8::MAX);
        }
        self.words.push(tag);
        match fields(tag, version) {
            Some(fields) => self.fields(fields),
            None => self.manner.over(Stop { number: TYPE_TAG, detail: Detail::TypeEntry }),
        }
    }
}

/// Puts a row for each entry to the table. What is left of an entry behind its fields is ignored.
pub fn read(
    file: &[u8],
    payload: Option<Range<usize>>,
    version: Version,
    manner: &mut impl Manner,
    table: &mut Table,
) -> Result<(), Stop> {
    entries::table(file, payload, 4, manner, |place, manner| {
        let mut row = Row { wire: Cursor::new(&file[place]), words: Vec::new(), manner };
        row.entry(version)?;
        table.push_counted(&row.words);
        Ok(())
    })
}
