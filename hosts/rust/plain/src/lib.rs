//! Reads Tile IR bytecode into the sheet and the pool of document 01, judges a handed sheet, writes it as a file and
//! names its types, and keeps a cache of files, as one would write it with vectors in safe Rust. It shares no code with
//! the library and none with decoder.rs: a second opinion, and the plain side of measurements. It also follows
//! decoder.rs over a file where docs/DIFFERENCES.md says that it parts from document 01.

pub mod cache;
mod container;
mod cursor;
mod debug;
mod entries;
pub mod fields;
mod judge;
mod manner;
mod names;
mod refusal;
mod rows;
mod sheet;
#[cfg(feature = "tally")]
pub mod tally;
mod types;
mod writer;

use std::ops::Range;

pub use container::{Sections, Version};
pub use names::type_text;
pub use refusal::{Detail, Refusal, Stop};
pub use writer::{image, write};

use cursor::Cursor;
use manner::{Lenient, Manner, Strict};
use refusal::{AtStage, ABSENT, STAGE_CALL};
use sheet::Table;

/// What a file says: its sheet, its pool, and the places in the file of the rows that the pool holds.
#[derive(Debug, Clone, PartialEq, Eq)]
pub struct Reading {
    pub words: Vec<u64>,
    pub pool: Vec<u8>,
    pub strings: Vec<Range<usize>>,
    pub constants: Vec<Range<usize>>,
    pub bodies: Vec<Range<usize>>,
}

/// The tables of a file, as far as they were read.
#[derive(Default)]
struct Tables {
    version: Version,
    sections: Sections,
    producer: Option<u64>,
    strings: Vec<Range<usize>>,
    types: Table,
    constants: Vec<Range<usize>>,
    globals: Table,
    functions: Table,
    bodies: Vec<Range<usize>>,
    attributes: Table,
    lists: Table,
}

impl Tables {
    /// Reads the payloads that count, in reading order.
    fn read(&mut self, file: &[u8], manner: &mut impl Manner) -> Result<(), Refusal> {
        let (version, sections) = container::sections(file, manner)?;
        let payload = |id: usize| sections[id].clone();
        (self.version, self.sections) = (version, sections.clone());
        self.strings = entries::places(file, payload(1), 4, manner).at_stage(3)?;
        self.producer = rows::producer(file, payload(7), self.strings.len() as u64).at_stage(4)?;
        types::read(file, payload(5), version, manner, &mut self.types).at_stage(5)?;
        self.constants = entries::places(file, payload(4), 8, manner).at_stage(6)?;
        self.globals = rows::globals(file, payload(6), version, manner).at_stage(7)?;
        (self.functions, self.bodies) = rows::functions(file, payload(2), manner).at_stage(8)?;
        (self.attributes, self.lists) = debug::tables(file, payload(3)).at_stage(9)?;
        Ok(())
    }

    fn reading(self, file: &[u8]) -> Reading {
        let Self { strings, constants, bodies, .. } = self;
        let mut pool = Vec::new();
        for place in strings.iter().chain(&constants).chain(&bodies) {
            pool.extend_from_slice(&file[place.clone()]);
        }
        let (string_rows, constant_rows) = (Table::of_lengths(&strings), Table::of_lengths(&constants));
        let tables =
            [string_rows, self.types, constant_rows, self.globals, self.functions, self.attributes, self.lists];
        Reading { words: sheet::words(self.version, self.producer, &pool, &tables), pool, strings, constants, bodies }
    }
}

/// Reads a file as document 01 says.
pub fn read(file: &[u8]) -> Result<Reading, Refusal> {
    let mut tables = Tables::default();
    tables.read(file, &mut Strict)?;
    Ok(tables.reading(file))
}

/// Puts so many varints, which stand one behind the other, to the numbers: the reader's loop over a list of indices,
/// alone.
pub fn varints(data: &[u8], count: u64, numbers: &mut Vec<u64>) -> Result<(), Stop> {
    let mut cursor = Cursor::new(data);
    for _ in 0..count {
        numbers.push(cursor.varint()?);
    }
    Ok(())
}

/// The version and the sections of a file: header and walk are judged, and no payload.
pub fn sections(file: &[u8]) -> Result<(Version, Sections), Refusal> {
    container::sections(file, &mut Strict)
}

/// What decoder.rs makes of a file by docs/DIFFERENCES.md, which says where it parts from document 01.
pub struct Followed {
    /// What it read over though document 01 refuses it, in order.
    pub over: Vec<Stop>,
    /// Where it ended before the file did: by an error, by a panic, or for want of memory.
    pub end: Option<Refusal>,
    /// What it had read by then.
    pub reading: Reading,
    pub sections: Sections,
}

/// Reads a file as decoder.rs does that has so many bytes of memory.
pub fn follow(file: &[u8], memory: u64) -> Followed {
    let mut tables = Tables::default();
    let mut manner = Lenient { memory, over: Vec::new() };
    let end = tables.read(file, &mut manner).err();
    Followed { over: manner.over, end, sections: tables.sections.clone(), reading: tables.reading(file) }
}

/// The place of one of the rows that `of` picks.
fn row(file: &[u8], index: u64, of: fn(Reading) -> Vec<Range<usize>>) -> Result<Range<usize>, Refusal> {
    let places = of(read(file)?);
    let place = usize::try_from(index).ok().and_then(|index| places.get(index));
    place.cloned().ok_or(Refusal { number: ABSENT, stage: STAGE_CALL, detail: Detail::None })
}

/// The place of a string in the file.
pub fn string(file: &[u8], index: u64) -> Result<Range<usize>, Refusal> {
    row(file, index, |reading| reading.strings)
}

/// The place of a constant in the file.
pub fn constant(file: &[u8], index: u64) -> Result<Range<usize>, Refusal> {
    row(file, index, |reading| reading.constants)
}

/// The place of a function's body in the file.
pub fn body(file: &[u8], index: u64) -> Result<Range<usize>, Refusal> {
    row(file, index, |reading| reading.bodies)
}

#[cfg(test)]
mod tests {
    use super::*;
    use crate::refusal::SHEET;

    /// Document 01's whole case.
    #[test]
    fn the_whole_case() {
        let file = b"\x7FTileIR\0\x0D\x01\0\0\x81\x0F\x04\xCB\x02\xCB\xCB\xCB\0\0\0\0\x01\0\0\0abc\0";
        let reading = read(file).expect("the whole case is accepted");
        assert_eq!(reading.words, [13, 1, 0, 0, 3, 19, 2, 21, 0, 21, 0, 21, 0, 21, 0, 21, 0, 21, 0, 1, 2]);
        assert_eq!(reading.pool, b"abc");
        assert_eq!([string(file, 0), string(file, 1)], [Ok(28..29), Ok(29..31)]);
        assert_eq!(string(file, 2).map_err(|refusal| (refusal.number, refusal.stage)), Err((ABSENT, STAGE_CALL)));
    }

    /// The same, written.
    #[test]
    fn the_whole_case_written() {
        let file = b"\x7FTileIR\0\x0D\x01\0\0\x81\x0F\x04\xCB\x02\xCB\xCB\xCB\0\0\0\0\x01\0\0\0abc\0";
        let words = [13, 1, 0, 0, 3, 19, 2, 21, 0, 21, 0, 21, 0, 21, 0, 21, 0, 21, 0, 1, 2];
        let sheet: Vec<u8> = words.into_iter().flat_map(u64::to_le_bytes).collect();
        assert_eq!(file.len(), 32);
        assert_eq!(image(&sheet), Ok(32));
        assert_eq!(write(&sheet, b"abc").as_deref(), Ok(&file[..]));
        let refused = |result: Result<Vec<u8>, Refusal>| result.map_err(|refusal| (refusal.number, refusal.stage));
        for (sheet, pool) in [(&sheet[..], &b"ab"[..]), (&sheet[..167], b"abc"), (&sheet[..160], b"abc")] {
            assert_eq!(refused(write(sheet, pool)), Err((SHEET, STAGE_CALL)));
        }
    }

    /// Where document 01 refuses a file, and where decoder.rs ends, with its number, its stage and why.
    fn ends(file: &[u8]) -> [Option<(u64, u64, Detail)>; 2] {
        [read(file).err(), follow(file, 1 << 20).end].map(|end| end.map(|end| (end.number, end.stage, end.detail)))
    }

    /// A type whose tag is not known, and a function with hints.
    #[test]
    fn what_decoder_rs_reads_over() {
        let file = b"\x7FTileIR\0\x0D\x01\0\0\x05\x09\x01\xCB\xCB\xCB\0\0\0\0\x17\x02\x06\x01\0\0\x04\0\0\0";
        assert_eq!(ends(file), [Some((8, 5, Detail::TypeEntry)), None]);
        let followed = follow(file, 1 << 20);
        assert_eq!(followed.over.iter().map(|over| over.number).collect::<Vec<_>>(), [8, 10]);
        assert_eq!(followed.reading.words[19..], [1, 23, 0, 0, 4, 0, 0]);
    }

    /// Counts of globals for which there is not enough memory, and no capacity at all.
    #[test]
    fn where_decoder_rs_ends() {
        let many = b"\x7FTileIR\0\x0D\x01\0\0\x06\x05\xFF\xFF\xFF\xFF\x7F\0";
        assert_eq!(ends(many), [Some((2, 7, Detail::None)), Some((2, 7, Detail::Memory))]);
        let most = b"\x7FTileIR\0\x0D\x01\0\0\x06\x09\x80\x80\x80\x80\x80\x80\x80\x80\x08\0";
        assert_eq!(ends(most), [Some((2, 7, Detail::None)), Some((2, 7, Detail::Capacity))]);
    }
}
