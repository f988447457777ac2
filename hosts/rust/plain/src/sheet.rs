//! The sheet: a table of contents, then the tables.

use std::ops::Range;

use crate::container::Version;

pub const CONTENTS_END: u64 = 19;

/// The rows of a table, one after the other, and how many they are.
#[derive(Default)]
pub struct Table {
    words: Vec<u64>,
    rows: u64,
}

impl Table {
    pub fn push(&mut self, row: &[u64]) {
        self.words.extend_from_slice(row);
        self.rows += 1;
    }

    /// A row that says first how many words follow.
    pub fn push_counted(&mut self, row: &[u64]) {
        self.words.push(row.len() as u64);
        self.push(row);
    }

    pub fn of_lengths(places: &[Range<usize>]) -> Self {
        let mut table = Self::default();
        places.iter().for_each(|place| table.push(&[place.len() as u64]));
        table
    }
}

/// The words of a sheet. `producer` is an index.
pub fn words(version: Version, producer: Option<u64>, pool: &[u8], tables: &[Table; 7]) -> Vec<u64> {
    let Version { major, minor, tag } = version;
    let producer = producer.map_or(0, |index| index + 1);
    let mut words = vec![major.into(), minor.into(), tag.into(), producer, pool.len() as u64];
    let mut start = CONTENTS_END;
    for table in tables {
        words.extend([start, table.rows]);
        start += table.words.len() as u64;
    }
    tables.iter().for_each(|table| words.extend_from_slice(&table.words));
    words
}
