//! The Debug section: attributes, and for each function the list of those that it uses.

use std::ops::Range;

use crate::cursor::Cursor;
use crate::entries::bounds;
use crate::refusal::{stop, Stop, BOUNDS, DEBUG_TAG};
use crate::sheet::Table;

/// How many varints follow a tag: Unknown, DICompileUnit, DIFile, DILexicalBlock, DILoc, DISubprogram, CallSite.
pub const FIELDS: [usize; 7] = [0, 1, 2, 4, 4, 6, 2];

/// The row of an attribute: its tag and six fields.
fn attribute(data: &[u8]) -> Result<[u64; 7], Stop> {
    let mut cursor = Cursor::new(data);
    let tag = cursor.byte()?;
    let fields = *FIELDS.get(usize::from(tag)).ok_or(stop(DEBUG_TAG))?;
    let mut row = [tag.into(), 0, 0, 0, 0, 0, 0];
    for field in &mut row[1..=fields] {
        *field = cursor.varint()?;
    }
    Ok(row)
}

/// The attributes by their starts in `data`; none of them is empty.
fn attributes(starts: &[u64], data: &[u8]) -> Result<Table, Stop> {
    let mut table = Table::default();
    for i in 0..starts.len() {
        let place = bounds(starts, i, data.len() as u64)?;
        if place.is_empty() {
            return Err(stop(BOUNDS));
        }
        table.push(&attribute(&data[place])?);
    }
    Ok(table)
}

/// The lists by their starts in `ids`.
fn lists(starts: &[u64], ids: &[u64]) -> Result<Table, Stop> {
    let mut table = Table::default();
    for i in 0..starts.len() {
        table.push_counted(&ids[bounds(starts, i, ids.len() as u64)?]);
    }
    Ok(table)
}

/// The attributes and the lists.
pub fn tables(file: &[u8], payload: Option<Range<usize>>) -> Result<(Table, Table), Stop> {
    let Some(payload) = payload else { return Ok(Default::default()) };
    let mut cursor = Cursor::new(&file[payload]);
    let list_starts = cursor.padded(4)?;
    let ids = cursor.padded(8)?;
    let attribute_starts = cursor.padded(4)?;
    let attributes = attributes(&attribute_starts, cursor.rest().1)?;
    Ok((attributes, lists(&list_starts, &ids)?))
}
