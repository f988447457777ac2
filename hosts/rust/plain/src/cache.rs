//! A cache of files over any number of slots: what a lent buffer and owner table stand for is found first, a call is
//! decided on that alone, and then the slot that it is about is rendered anew.

use std::ops::Range;

use crate::refusal::{stop, AtStage, Refusal, Stop, ABSENT, FULL, NO_SLOT, SHEET, STAGE_CALL};

/// The three words of a row: mark, instance and length.
const ROW: usize = 24;

/// The file that an instance holds.
#[derive(Debug, Clone, Copy, PartialEq, Eq)]
pub struct Held<'c> {
    pub instance: u64,
    pub file: &'c [u8],
}

/// What a cache stands for: each slot is free or holds a file.
pub type Slots<'c> = Vec<Option<Held<'c>>>;

/// The size of a slot, if the buffer has so many equal ones.
fn slot_size(slots: usize, cache: &[u8]) -> Result<usize, Stop> {
    if cache.len() % slots == 0 {
        Ok(cache.len() / slots)
    } else {
        Err(stop(SHEET))
    }
}

/// What a row says of its slot.
fn held<'c>(row: &[u8], slot: &'c [u8]) -> Result<Option<Held<'c>>, Stop> {
    let word = |i: usize| u64::from_le_bytes(row[8 * i..8 * i + 8].try_into().expect("a word has eight bytes"));
    let [mark, instance, length] = [0, 1, 2].map(word);
    if mark == 0 {
        return Ok(None);
    }
    let file = usize::try_from(length).ok().and_then(|length| slot.get(..length)).ok_or(stop(SHEET))?;
    Ok(Some(Held { instance, file }))
}

/// What a buffer and an owner table stand for, if they are a cache of so many slots, of which there is one at least.
pub fn stands_for<'c>(slots: usize, cache: &'c [u8], owners: &[u8]) -> Result<Slots<'c>, Stop> {
    let size = slot_size(slots, cache)?;
    if owners.len() != slots * ROW {
        return Err(stop(SHEET));
    }
    let rows = owners.chunks_exact(ROW).enumerate();
    let found = rows.map(|(k, row)| held(row, &cache[k * size..(k + 1) * size])).collect::<Result<Slots, Stop>>()?;
    let mut instances: Vec<u64> = found.iter().flatten().map(|held| held.instance).collect();
    instances.sort_unstable();
    if instances.windows(2).any(|two| two[0] == two[1]) {
        return Err(stop(SHEET));
    }
    Ok(found)
}

/// The slot that an instance holds, and its file.
fn of<'c>(slots: &Slots<'c>, instance: u64) -> Option<(usize, Held<'c>)> {
    let mut taken = slots.iter().enumerate().filter_map(|(k, held)| Some((k, (*held)?)));
    taken.find(|(_, held)| held.instance == instance)
}

/// The same for a call that needs one.
fn found<'c>(slots: usize, cache: &'c [u8], owners: &[u8], instance: u64) -> Result<(usize, Held<'c>), Refusal> {
    let slots = stands_for(slots, cache, owners).at_stage(STAGE_CALL)?;
    of(&slots, instance).ok_or(stop(ABSENT)).at_stage(STAGE_CALL)
}

/// Writes a slot and its row: what is held from now on, and zeros.
fn render(cache: &mut [u8], owners: &mut [u8], slot: usize, held: Option<Held>) {
    let size = cache.len() / (owners.len() / ROW);
    let (mark, Held { instance, file }) = held.map_or((0, Held { instance: 0, file: &[] }), |held| (1, held));
    let (used, rest) = cache[slot * size..(slot + 1) * size].split_at_mut(file.len());
    used.copy_from_slice(file);
    rest.fill(0);
    let row = [mark, instance, file.len() as u64];
    owners[slot * ROW..(slot + 1) * ROW].copy_from_slice(&row.map(u64::to_le_bytes).concat());
}

/// The slot that a file of an instance is to have.
fn place(slots: usize, cache: &[u8], owners: &[u8], Held { instance, file }: Held) -> Result<usize, Refusal> {
    let taken = stands_for(slots, cache, owners).at_stage(STAGE_CALL)?;
    crate::read(file)?;
    if file.len() > cache.len() / slots {
        return Err(stop(FULL)).at_stage(STAGE_CALL);
    }
    let lowest_free = || taken.iter().position(Option::is_none);
    let slot = of(&taken, instance).map(|(slot, _)| slot).or_else(lowest_free);
    slot.ok_or(stop(NO_SLOT)).at_stage(STAGE_CALL)
}

/// Keeps a file for an instance. Gives the slot.
pub fn put(slots: usize, cache: &mut [u8], owners: &mut [u8], instance: u64, file: &[u8]) -> Result<u64, Refusal> {
    let held = Held { instance, file };
    let slot = place(slots, cache, owners, held)?;
    render(cache, owners, slot, Some(held));
    Ok(slot as u64)
}

/// The place in the buffer of a constant of the file that an instance holds.
pub fn fetch(slots: usize, cache: &[u8], owners: &[u8], instance: u64, index: u64) -> Result<Range<usize>, Refusal> {
    let (slot, held) = found(slots, cache, owners, instance)?;
    let place = crate::constant(held.file, index)?;
    let start = slot * (cache.len() / slots);
    Ok(start + place.start..start + place.end)
}

/// Clears what an instance holds. Gives the slot.
pub fn drop(slots: usize, cache: &mut [u8], owners: &mut [u8], instance: u64) -> Result<u64, Refusal> {
    let (slot, _) = found(slots, cache, owners, instance)?;
    render(cache, owners, slot, None);
    Ok(slot as u64)
}

#[cfg(test)]
mod tests {
    use super::*;
    use crate::refusal::MAGIC;

    const SLOTS: usize = 3;
    const SIZE: usize = 40;

    /// A file of version 13.1 whose only constant is this one. It has 31 bytes more, 30 of them before.
    fn file(constant: &[u8]) -> Vec<u8> {
        let payload = [&b"\x01\xCB\xCB\xCB\xCB\xCB\xCB\xCB\0\0\0\0\0\0\0\0"[..], constant].concat();
        [&b"\x7FTileIR\0\x0D\x01\0\0\x04"[..], &[payload.len() as u8], &payload, &[0]].concat()
    }

    fn refused<T>(result: Result<T, Refusal>) -> Option<(u64, u64)> {
        result.err().map(|refusal| (refusal.number, refusal.stage))
    }

    /// A table of rows.
    fn table(rows: [[u64; 3]; SLOTS]) -> Vec<u8> {
        rows.concat().into_iter().flat_map(u64::to_le_bytes).collect()
    }

    #[test]
    fn a_history() {
        let (mut cache, mut owners) = (vec![7; SLOTS * SIZE], vec![0; SLOTS * ROW]);
        let [a, b, c] = ["abc", "de", "nine byte"].map(|constant| file(constant.as_bytes()));
        assert_eq!(put(SLOTS, &mut cache, &mut owners, u64::MAX, &a), Ok(0));
        assert_eq!(put(SLOTS, &mut cache, &mut owners, 0, &b), Ok(1));
        assert_eq!(put(SLOTS, &mut cache, &mut owners, u64::MAX, &c), Ok(0));
        let held = |instance, file| Some(Held { instance, file });
        assert_eq!(stands_for(SLOTS, &cache, &owners), Ok(vec![held(u64::MAX, &c[..]), held(0, &b), None]));
        assert_eq!(fetch(SLOTS, &cache, &owners, u64::MAX, 0), Ok(30..39));
        assert_eq!(fetch(SLOTS, &cache, &owners, 0, 0), Ok(SIZE + 30..SIZE + 32));
        assert_eq!(refused(fetch(SLOTS, &cache, &owners, 0, 1)), Some((ABSENT, STAGE_CALL)));
        assert_eq!(drop(SLOTS, &mut cache, &mut owners, u64::MAX), Ok(0));
        assert_eq!(refused(drop(SLOTS, &mut cache, &mut owners, u64::MAX)), Some((ABSENT, STAGE_CALL)));
        assert_eq!(owners, table([[0; 3], [1, 0, b.len() as u64], [0; 3]]));
        assert_eq!(cache, [&[0; SIZE][..], &b, &[0; SIZE - 33], &[7; SIZE]].concat());
    }

    /// 12, then the file's refusal, then 11, then 18.
    #[test]
    fn the_order_of_refusals() {
        let (mut cache, mut owners) = (vec![7; SLOTS * SIZE], table([[1, 4, 0], [9, 5, 40], [1, 6, 1]]));
        let before = (cache.clone(), owners.clone());
        for (file, wanted) in [
            (vec![0; SIZE + 1], (MAGIC, 1)),
            (file(b"ten bytes."), (FULL, STAGE_CALL)),
            (file(b"nine byte"), (NO_SLOT, STAGE_CALL)),
        ] {
            assert_eq!(refused(put(SLOTS, &mut cache, &mut owners, 7, &file)), Some(wanted));
            assert_eq!(refused(put(SLOTS, &mut cache[1..], &mut owners, 7, &file)), Some((SHEET, STAGE_CALL)));
        }
        assert_eq!((&cache, &owners), (&before.0, &before.1));
        assert_eq!(put(SLOTS, &mut cache, &mut owners, 5, &file(b"nine byte")), Ok(1));
    }

    #[test]
    fn tables_that_stand_for_nothing() {
        let cache = [0; SLOTS * SIZE];
        for owners in [
            table([[1, 4, 0], [0; 3], [2, 4, 0]]),
            table([[1, 4, 41], [0; 3], [0; 3]]),
            table([[0; 3], [0; 3], [u64::MAX, 0, u64::MAX]]),
            vec![0; SLOTS * ROW - 1],
            vec![0; (SLOTS + 1) * ROW],
            vec![],
        ] {
            assert_eq!(stands_for(SLOTS, &cache, &owners), Err(stop(SHEET)));
        }
        let free_rows = table([[0, 4, u64::MAX], [0, 4, 1], [0, 4, 41]]);
        assert_eq!(stands_for(SLOTS, &cache, &free_rows), Ok(vec![None; SLOTS]));
        assert_eq!(stands_for(SLOTS, &[], &free_rows), Ok(vec![None; SLOTS]));
    }
}
