//! Type tables whose rows name rows on both sides of each bound, and have the numbers at which a text changes.

use plain::fields::{fields, Field};
use plain::Version;

use crate::files::{any_tag, make, Dice};
use crate::sheets::Handed;

/// A table has up to so many rows: names in names grow fast.
const MOST_ROWS: u64 = 7;

/// Words 5 to 18 are the contents; these are the start and the count of the types, and the start of what follows.
const TYPES_START: usize = 7;
const TYPES_COUNT: usize = 8;
const NEXT_START: usize = 9;
const CONTENTS_END: usize = 19;

/// An index in row `row` of `rows`: the last earlier one, its own, a later one, the last of all, one that no table has,
/// or any earlier one.
fn index(dice: &mut Dice, row: u64, rows: u64) -> u64 {
    match dice.below(10) {
        0 => row.saturating_sub(1),
        1 => row,
        2 => row + 1,
        3 => [rows - 1, rows][dice.below(2) as usize],
        4 => u64::MAX,
        5 => dice.number(),
        _ => dice.below(row.max(1)),
    }
}

/// The bits of a signed number of so many bytes: the least, which is `DYNAMIC` in eight, its neighbours, and others.
fn signed(dice: &mut Dice, width: u8) -> u64 {
    let bits = 8 * u32::from(width);
    let least = 1 << (bits - 1);
    let number = match dice.below(8) {
        0 | 1 => least,
        2 => least + 1,
        3 => least - 1,
        4 => u64::MAX,
        5 => dice.below(11),
        _ => dice.number(),
    };
    number & (u64::MAX >> (64 - bits))
}

fn list(dice: &mut Dice, row: &mut Vec<u64>, mut item: impl FnMut(&mut Dice) -> u64) {
    let rank = if dice.one_in(64) { 30 } else { dice.below(4) };
    row.push(rank);
    (0..rank).for_each(|_| row.push(item(dice)));
}

/// A row behind its count.
fn type_row(dice: &mut Dice, tag: u64, version: Version, number: u64, rows: u64) -> Vec<u64> {
    let (mut row, mut flags) = (vec![tag], 0);
    for field in fields(tag, version).expect("the tags are known") {
        match field {
            Field::Flags => {
                flags = if dice.one_in(4) { dice.number() } else { dice.below(4) };
                row.push(flags);
            }
            Field::LateFlags => {
                flags = dice.below(2);
                row.push(flags);
            }
            Field::Index => row.push(index(dice, number, rows)),
            Field::Indices => list(dice, &mut row, |dice| index(dice, number, rows)),
            Field::Numbers(width) => list(dice, &mut row, |dice| signed(dice, *width)),
            Field::LastByte if flags & 1 != 0 => row.push(dice.word() & 0xFF),
            Field::LastVarint if flags & 1 != 0 => row.push(dice.number()),
            Field::NoFlags | Field::LastByte | Field::LastVarint => row.push(0),
            Field::Presence => {}
        }
    }
    row
}

/// Puts rows in the place of the types of a sheet.
fn replace_types(handed: &mut Handed, rows: &[Vec<u64>]) {
    let words = &mut handed.words;
    let (start, end) = (words[TYPES_START] as usize, words[NEXT_START] as usize);
    let new: Vec<u64> = rows.iter().flat_map(|row| [&[row.len() as u64], &row[..]].concat()).collect();
    words[TYPES_COUNT] = rows.len() as u64;
    for table_start in (NEXT_START..CONTENTS_END).step_by(2) {
        words[table_start] = words[table_start] + new.len() as u64 - (end - start) as u64;
    }
    words.splice(start..end, new);
}

/// A sheet of version 13.4 that has these types and nothing else.
pub fn of_types(rows: &[Vec<u64>]) -> Handed {
    let mut handed = Handed::of_lengths(&[], &[]);
    handed.words[1] = 4;
    replace_types(&mut handed, rows);
    handed
}

/// A sheet with such a table among any others, and how many rows the table has.
pub fn table(dice: &mut Dice) -> (Handed, u64) {
    let most = 2 + dice.below(3);
    let mut handed = Handed::of(make(dice, most));
    let [major, minor, tag] = [0, 1, 2].map(|part| handed.words[part]);
    let version = Version { major: major as u8, minor: minor as u8, tag: tag as u16 };
    let rows = dice.below(MOST_ROWS + 1);
    let mut row = |number| {
        let tag = any_tag(dice);
        type_row(dice, tag, version, number, rows)
    };
    let types: Vec<Vec<u64>> = (0..rows).map(&mut row).collect();
    replace_types(&mut handed, &types);
    (handed, rows)
}
