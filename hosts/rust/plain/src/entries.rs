//! Tables of entries that stand by their starts: String, Type, Constant, and the attributes of Debug.

use std::ops::Range;

use crate::cursor::Cursor;
use crate::manner::Manner;
use crate::refusal::{stop, Detail, Stop, BOUNDS};

/// What decoder.rs reserves for a start.
const START: u64 = 8;

/// Start and end of entry `i`: it runs to the next start, and the last one to the end.
pub fn bounds(starts: &[u64], i: usize, end: u64) -> Result<Range<usize>, Stop> {
    let (from, to) = (starts[i], starts.get(i + 1).copied().unwrap_or(end));
    if from > to || to > end {
        return Err(stop(BOUNDS));
    }
    Ok(from as usize..to as usize)
}

/// Reads a table whose starts have `width` bytes. `entry` gets the place in the file of each entry, which is judged
/// before the entry is read.
pub fn table<M: Manner>(
    file: &[u8],
    payload: Option<Range<usize>>,
    width: u64,
    manner: &mut M,
    mut entry: impl FnMut(Range<usize>, &mut M) -> Result<(), Stop>,
) -> Result<(), Stop> {
    let Some(payload) = payload else { return Ok(()) };
    let mut cursor = Cursor::new(&file[payload.clone()]);
    let count = cursor.varint()?;
    if count == 0 {
        return Ok(());
    }
    cursor.padding(width)?;
    manner.reserve(count, START)?;
    let starts = cursor.times(count, |cursor| cursor.fixed(width))?;
    let (at, data) = cursor.rest();
    let data_at = payload.start + at;
    for i in 0..starts.len() {
        let place = bounds(&starts, i, data.len() as u64).map_err(|stop| Stop { detail: Detail::Outside, ..stop })?;
        entry(data_at + place.start..data_at + place.end, manner)?;
    }
    Ok(())
}

/// The places of entries that are plain bytes.
pub fn places(
    file: &[u8],
    payload: Option<Range<usize>>,
    width: u64,
    manner: &mut impl Manner,
) -> Result<Vec<Range<usize>>, Stop> {
    let mut places = Vec::new();
    table(file, payload, width, manner, |place, _| {
        places.push(place);
        Ok(())
    })?;
    Ok(places)
}
