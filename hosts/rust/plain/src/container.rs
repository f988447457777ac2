//! The header and the walk over the sections.

use std::ops::Range;

use crate::cursor::Cursor;
use crate::manner::Manner;
use crate::refusal::{stop, AtStage, Refusal, Stop, LIMIT, MAGIC};

pub const MOST_BYTES: usize = 1 << 30;
pub const MAGIC_BYTES: &[u8] = b"\x7FTileIR\0";
pub const END_OF_BYTECODE: u8 = 0;

/// The version of the header; the order is that of its parts.
#[derive(Debug, Clone, Copy, Default, PartialEq, Eq, PartialOrd, Ord)]
pub struct Version {
    pub major: u8,
    pub minor: u8,
    pub tag: u16,
}

impl Version {
    pub fn since(self, major: u8, minor: u8) -> bool {
        self >= Self { major, minor, tag: 0 }
    }
}

/// The places in the file of the payloads that count, by section id.
pub type Sections = [Option<Range<usize>>; 8];

fn header(cursor: &mut Cursor) -> Result<Version, Stop> {
    if cursor.bytes(8)? != MAGIC_BYTES {
        return Err(stop(MAGIC));
    }
    Ok(Version { major: cursor.byte()?, minor: cursor.byte()?, tag: cursor.fixed(2)? as u16 })
}

/// The payload behind a section's first byte.
fn payload(cursor: &mut Cursor, first: u8) -> Result<Range<usize>, Stop> {
    let size = cursor.varint()?;
    if first & 0x80 != 0 {
        let alignment = cursor.varint()?;
        cursor.padding(alignment)?;
    }
    let start = cursor.at();
    cursor.bytes(size)?;
    Ok(start..cursor.at())
}

/// Goes over the sections up to the end marker. The last with an id counts; ids that have no place are passed over.
fn walk(cursor: &mut Cursor) -> Result<Sections, Stop> {
    let mut sections = Sections::default();
    loop {
        let first = cursor.byte()?;
        let id = first & 0x7F;
        if id == END_OF_BYTECODE {
            return Ok(sections);
        }
        let place = payload(cursor, first)?;
        if let Some(slot) = sections.get_mut(usize::from(id)) {
            *slot = Some(place);
        }
    }
}

/// The version and the sections of a file.
pub fn sections(file: &[u8], manner: &mut impl Manner) -> Result<(Version, Sections), Refusal> {
    if file.len() > MOST_BYTES {
        manner.over(stop(LIMIT)).at_stage(0)?;
    }
    let mut cursor = Cursor::new(file);
    let version = header(&mut cursor).at_stage(1)?;
    Ok((version, walk(&mut cursor).at_stage(2)?))
}
