//! Writes a well-formed sheet and its pool as a file: the nonempty tables, in reading order.

mod types;
mod wire;

use crate::container::{Version, END_OF_BYTECODE, MAGIC_BYTES, MOST_BYTES};
use crate::debug::FIELDS;
use crate::judge::{judge, whole_words, Judged, Rows};
use crate::refusal::{stop, AtStage, Refusal, Stop, LIMIT, SHEET, STAGE_CALL};
use wire::{Pool, Wire};

const MOST_WORDS: usize = 1 << 26;

/// Where entries start that stand one behind the other.
fn starts(sizes: impl Iterator<Item = u128>) -> Vec<u128> {
    let next = |end: &mut u128, size: u128| {
        let start = *end;
        *end += size;
        Some(start)
    };
    sizes.scan(0, next).collect()
}

/// A table of entries that stand by their starts, which have `width` bytes.
fn entries(wire: &mut Wire, width: usize, entries: &[Wire]) -> Result<(), Stop> {
    wire.padded(width, &starts(entries.iter().map(Wire::size)))?;
    entries.iter().for_each(|entry| wire.append(entry));
    Ok(())
}

/// Entries that are rows of the pool.
fn pooled(width: usize, rows: &Rows, pool: &mut Pool) -> Result<Wire, Stop> {
    let entry = |row: &&[u64]| {
        let mut entry = Wire::default();
        entry.pooled(pool, row[0]);
        entry
    };
    let mut wire = Wire::default();
    entries(&mut wire, width, &rows.iter().map(entry).collect::<Vec<_>>())?;
    Ok(wire)
}

fn type_entries(rows: &Rows, version: Version) -> Result<Wire, Stop> {
    let mut wire = Wire::default();
    entries(&mut wire, 4, &rows.iter().map(|row| types::entry(row, version)).collect::<Vec<_>>())?;
    Ok(wire)
}

/// A count and the items one behind the other.
fn items(rows: &Rows, mut item: impl FnMut(&mut Wire, &[u64])) -> Wire {
    let mut wire = Wire::default();
    wire.varint(rows.len() as u128);
    rows.iter().for_each(|row| item(&mut wire, row));
    wire
}

fn globals(rows: &Rows, version: Version) -> Wire {
    items(rows, |wire, row| {
        wire.varints(&row[..4]);
        if version.since(13, 3) {
            wire.byte(row[4] as u8);
            wire.varint(row[5]);
        }
    })
}

fn functions(rows: &Rows, pool: &mut Pool) -> Wire {
    items(rows, |wire, row| {
        wire.varints(&row[..2]);
        wire.byte(row[2] as u8);
        wire.varints(&row[3..]);
        wire.pooled(pool, row[4]);
    })
}

fn attribute(row: &[u64]) -> Wire {
    let mut wire = Wire::default();
    wire.byte(row[0] as u8);
    wire.varints(&row[1..=FIELDS[row[0] as usize]]);
    wire
}

/// List starts count ids, and those of attributes count bytes.
fn debug(attributes: &Rows, lists: &Rows) -> Result<Wire, Stop> {
    let mut wire = Wire::default();
    let ids: Vec<u128> = lists.concat().into_iter().map(u128::from).collect();
    wire.padded(4, &starts(lists.iter().map(|list| list.len() as u128)))?;
    wire.padded(8, &ids)?;
    entries(&mut wire, 4, &attributes.iter().map(|row| attribute(row)).collect::<Vec<_>>())?;
    Ok(wire)
}

/// A section; an alignment of 0 is none.
fn section(file: &mut Wire, id: u8, alignment: u8, payload: &Wire) {
    file.byte(if alignment == 0 { id } else { id | 0x80 });
    file.varint(payload.size());
    if alignment != 0 {
        file.varint(alignment);
        file.padding(alignment.into());
    }
    file.append(payload);
}

/// The whole file. The pool's rows come in the order of its tables.
fn lay(sheet: &Judged, pool: &mut Pool) -> Result<Wire, Stop> {
    let version = sheet.version;
    let mut file = Wire::default();
    file.bytes(MAGIC_BYTES);
    file.bytes(&[version.major, version.minor]);
    file.fixed(version.tag.into(), 2);
    if !sheet.strings.is_empty() {
        section(&mut file, 1, 4, &pooled(4, &sheet.strings, pool)?);
    }
    if let Some(index) = sheet.producer {
        let mut payload = Wire::default();
        payload.varint(index);
        section(&mut file, 7, 0, &payload);
    }
    if !sheet.types.is_empty() {
        section(&mut file, 5, 4, &type_entries(&sheet.types, version)?);
    }
    if !sheet.constants.is_empty() {
        section(&mut file, 4, 8, &pooled(8, &sheet.constants, pool)?);
    }
    if !sheet.globals.is_empty() {
        section(&mut file, 6, 0, &globals(&sheet.globals, version));
    }
    if !sheet.functions.is_empty() {
        section(&mut file, 2, 0, &functions(&sheet.functions, pool));
    }
    if !sheet.attributes.is_empty() || !sheet.lists.is_empty() {
        section(&mut file, 3, 8, &debug(&sheet.attributes, &sheet.lists)?);
    }
    file.byte(END_OF_BYTECODE);
    Ok(file)
}

/// The words of a sheet that is lent as bytes, if they are whole words and not too many.
fn words(sheet: &[u8]) -> Result<Vec<u64>, Stop> {
    if sheet.len() / 8 > MOST_WORDS {
        return Err(stop(LIMIT));
    }
    whole_words(sheet)
}

/// The size of the file, if it is not too long. A start that does not fit is found before.
fn size(sheet: &Judged) -> Result<u64, Stop> {
    let size = lay(sheet, &mut Pool(None))?.size();
    if size > MOST_BYTES as u128 {
        return Err(stop(LIMIT));
    }
    Ok(size as u64)
}

/// How many bytes a sheet takes as a file. It is lent no pool.
pub fn image(sheet: &[u8]) -> Result<u64, Refusal> {
    words(sheet).and_then(|words| size(&judge(&words)?)).at_stage(STAGE_CALL)
}

fn written(sheet: &[u8], pool: &[u8]) -> Result<Vec<u8>, Stop> {
    if pool.len() > MOST_BYTES {
        return Err(stop(LIMIT));
    }
    let words = words(sheet)?;
    let sheet = judge(&words)?;
    if sheet.pool != pool.len() as u64 {
        return Err(stop(SHEET));
    }
    size(&sheet)?;
    Ok(lay(&sheet, &mut Pool(Some(pool)))?.into_bytes())
}

/// A sheet and its pool as a file.
pub fn write(sheet: &[u8], pool: &[u8]) -> Result<Vec<u8>, Refusal> {
    written(sheet, pool).at_stage(STAGE_CALL)
}
