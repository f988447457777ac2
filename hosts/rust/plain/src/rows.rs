//! Producer, Global and Func: items that stand one behind the other.

use std::ops::Range;

use crate::container::Version;
use crate::cursor::Cursor;
use crate::manner::Manner;
use crate::refusal::{stop, Stop, HINTS, PRODUCER};
use crate::sheet::Table;

pub const HAS_OPTIMIZATION_HINTS: u8 = 4;
/// What decoder.rs reserves for an item, which it makes a text of.
const ITEM: u64 = 24;

/// The index of the producer's string, one of `strings`.
pub fn producer(file: &[u8], payload: Option<Range<usize>>, strings: u64) -> Result<Option<u64>, Stop> {
    let Some(payload) = payload else { return Ok(None) };
    let index = Cursor::new(&file[payload]).varint()?;
    if index >= strings {
        return Err(stop(PRODUCER));
    }
    Ok(Some(index))
}

fn global(cursor: &mut Cursor, version: Version) -> Result<[u64; 6], Stop> {
    let mut row = [cursor.varint()?, cursor.varint()?, cursor.varint()?, cursor.varint()?, 0, 0];
    if version.since(13, 3) {
        row[4] = cursor.byte()?.into();
        row[5] = u64::from(cursor.varint()? != 0);
    }
    Ok(row)
}

pub fn globals(
    file: &[u8],
    payload: Option<Range<usize>>,
    version: Version,
    manner: &mut impl Manner,
) -> Result<Table, Stop> {
    let mut table = Table::default();
    let Some(payload) = payload else { return Ok(table) };
    let mut cursor = Cursor::new(&file[payload]);
    let count = cursor.varint()?;
    manner.reserve(count, ITEM)?;
    for _ in 0..count {
        table.push(&global(&mut cursor, version)?);
    }
    Ok(table)
}

/// A function's row. Its body is what the cursor passed over last. A manner that reads over the hints flag takes the
/// hints for a body.
fn function(cursor: &mut Cursor, manner: &mut impl Manner) -> Result<[u64; 5], Stop> {
    let (name, signature) = (cursor.varint()?, cursor.varint()?);
    let flags = cursor.byte()?;
    let location = cursor.varint()?;
    if flags & HAS_OPTIMIZATION_HINTS != 0 {
        manner.over(stop(HINTS))?;
    }
    let size = cursor.varint()?;
    cursor.bytes(size)?;
    Ok([name, signature, flags.into(), location, size])
}

/// The rows of functions, and the places of their bodies in the file.
pub fn functions(
    file: &[u8],
    payload: Option<Range<usize>>,
    manner: &mut impl Manner,
) -> Result<(Table, Vec<Range<usize>>), Stop> {
    let (mut table, mut bodies) = (Table::default(), Vec::new());
    let Some(payload) = payload else { return Ok((table, bodies)) };
    let mut cursor = Cursor::new(&file[payload.clone()]);
    let count = cursor.varint()?;
    manner.reserve(count, ITEM)?;
    for _ in 0..count {
        let row = function(&mut cursor, manner)?;
        table.push(&row);
        let end = payload.start + cursor.at();
        bodies.push(end - row[4] as usize..end);
    }
    Ok((table, bodies))
}
