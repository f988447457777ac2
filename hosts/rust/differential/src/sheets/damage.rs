//! Damaged sheets: each wound breaks a clause of document 01's "Well-formed", or any word.

use super::handed::{Handed, ATTRIBUTES, FUNCTIONS, GLOBALS, TYPES};
use crate::files::Dice;
use crate::tally::{Against, Tally};

/// Hurts a sheet that is well-formed, if it has what the wound needs.
type Wound = fn(&mut Dice, &mut Handed) -> Option<()>;

pub const WOUNDS: [(&str, Wound); 34] = [
    ("a word changed", word_changed),
    ("a word off by one", word_off_by_one),
    ("a bit changed", bit_changed),
    ("a start or a row count off by one", contents_off_by_one),
    ("a huge row count", huge_count),
    ("any words", any_words),
    ("any rows below the same contents", any_rows),
    ("words cut off", words_cut),
    ("words added", words_added),
    ("a word put in", word_put_in),
    ("a word taken out", word_taken_out),
    ("bytes that are no word", odd_bytes),
    ("a pool one byte longer", longer_pool),
    ("a pool one byte shorter", shorter_pool),
    ("another version", other_version),
    ("a version too wide", wide_version),
    ("a producer outside", producer_outside),
    ("a gap between tables", gap),
    ("two tables in another order", tables_swapped),
    ("an unknown type tag", type_tag),
    ("another type tag", other_type_tag),
    ("a type's count", type_count),
    ("a type's flags", type_flags),
    ("a type's last field", type_last),
    ("a type's field 2^32 higher", type_wide),
    ("a visibility too wide or absent", visibility),
    ("a constant flag", constant_flag),
    ("the hints flag", hints),
    ("function flags too wide", function_flags),
    ("an unknown debug tag", debug_tag),
    ("a debug attribute's field", debug_field),
    ("a length off by one", length_off_by_one),
    ("lengths whose sum wraps", wrapping_lengths),
    ("a length and the pool's, both higher", both_lengths),
];

/// Those that a call that is lent no pool does not see.
const OF_POOL: [&str; 3] =
    ["a pool one byte longer", "a pool one byte shorter", "a length and the pool's, both higher"];

/// One of several.
fn any_of(dice: &mut Dice, places: &[usize]) -> Option<usize> {
    let count = places.len() as u64;
    (count > 0).then(|| places[dice.below(count) as usize])
}

fn any_word<'h>(dice: &mut Dice, handed: &'h mut Handed) -> &'h mut u64 {
    let at = dice.below(handed.words.len() as u64) as usize;
    &mut handed.words[at]
}

/// 1 or -1.
fn one(dice: &mut Dice) -> u64 {
    if dice.one_in(2) {
        1
    } else {
        u64::MAX
    }
}

/// A small number, a large one, or any.
fn number(dice: &mut Dice) -> u64 {
    match dice.below(3) {
        0 => dice.below(9),
        1 => 1 << dice.below(64),
        _ => dice.number(),
    }
}

fn word_changed(dice: &mut Dice, handed: &mut Handed) -> Option<()> {
    let new = number(dice);
    *any_word(dice, handed) = new;
    Some(())
}

fn word_off_by_one(dice: &mut Dice, handed: &mut Handed) -> Option<()> {
    let one = one(dice);
    let word = any_word(dice, handed);
    *word = word.wrapping_add(one);
    Some(())
}

fn bit_changed(dice: &mut Dice, handed: &mut Handed) -> Option<()> {
    let bit = 1 << dice.below(64);
    *any_word(dice, handed) ^= bit;
    Some(())
}

fn contents_off_by_one(dice: &mut Dice, handed: &mut Handed) -> Option<()> {
    let word = &mut handed.words[5 + dice.below(14) as usize];
    *word = word.wrapping_add(one(dice));
    Some(())
}

fn huge_count(dice: &mut Dice, handed: &mut Handed) -> Option<()> {
    let huge = [u64::MAX, 1 << 63, 1 << 32, 1 << 61, u64::MAX / 7 + 1];
    handed.words[6 + 2 * dice.below(7) as usize] = huge[dice.below(5) as usize];
    Some(())
}

/// As many words as there were, or fewer.
fn any_words(dice: &mut Dice, handed: &mut Handed) -> Option<()> {
    let count = dice.below(handed.words.len() as u64 + 1);
    handed.words = (0..count).map(|_| number(dice)).collect();
    Some(())
}

fn any_rows(dice: &mut Dice, handed: &mut Handed) -> Option<()> {
    let rows = handed.words.get_mut(19..).filter(|rows| !rows.is_empty())?;
    rows.iter_mut().for_each(|word| *word = if dice.one_in(9) { number(dice) } else { dice.below(23) });
    Some(())
}

fn words_cut(dice: &mut Dice, handed: &mut Handed) -> Option<()> {
    let less = if dice.one_in(2) { 1 } else { 1 + dice.below(handed.words.len() as u64) };
    handed.words.truncate(handed.words.len() - less as usize);
    Some(())
}

fn words_added(dice: &mut Dice, handed: &mut Handed) -> Option<()> {
    for _ in 0..1 + dice.below(3) {
        handed.words.push(number(dice));
    }
    Some(())
}

fn word_put_in(dice: &mut Dice, handed: &mut Handed) -> Option<()> {
    let at = dice.below(handed.words.len() as u64) as usize;
    handed.words.insert(at, number(dice));
    Some(())
}

fn word_taken_out(dice: &mut Dice, handed: &mut Handed) -> Option<()> {
    handed.words.remove(dice.below(handed.words.len() as u64) as usize);
    Some(())
}

fn odd_bytes(dice: &mut Dice, handed: &mut Handed) -> Option<()> {
    handed.odd = vec![dice.word() as u8; 1 + dice.below(7) as usize];
    Some(())
}

fn longer_pool(dice: &mut Dice, handed: &mut Handed) -> Option<()> {
    handed.pool.push(dice.word() as u8);
    Some(())
}

fn shorter_pool(_: &mut Dice, handed: &mut Handed) -> Option<()> {
    handed.pool.pop().map(drop)
}

/// Fields that one version has are absent in another.
fn other_version(dice: &mut Dice, handed: &mut Handed) -> Option<()> {
    handed.words[0] = 13;
    handed.words[1] = 2 + dice.below(3);
    Some(())
}

fn wide_version(dice: &mut Dice, handed: &mut Handed) -> Option<()> {
    let part = dice.below(3) as usize;
    handed.words[part] += [1 << 8, 1 << 8, 1 << 16][part] << dice.below(40);
    Some(())
}

fn producer_outside(dice: &mut Dice, handed: &mut Handed) -> Option<()> {
    let strings = handed.words[6];
    handed.words[3] = if dice.one_in(2) { strings + 1 } else { (strings + 1).max(dice.number()) };
    Some(())
}

/// A word before a table, and the starts say so.
fn gap(dice: &mut Dice, handed: &mut Handed) -> Option<()> {
    let table = dice.below(7) as usize;
    let start = handed.words[5 + 2 * table] as usize;
    handed.words.insert(start, dice.below(3));
    (table..7).for_each(|table| handed.words[5 + 2 * table] += 1);
    Some(())
}

fn tables_swapped(dice: &mut Dice, handed: &mut Handed) -> Option<()> {
    let (one, other) = (5 + 2 * dice.below(7) as usize, 5 + 2 * dice.below(7) as usize);
    handed.words.swap(one, other);
    handed.words.swap(one + 1, other + 1);
    Some(())
}

fn type_tag(dice: &mut Dice, handed: &mut Handed) -> Option<()> {
    let row = any_of(dice, &handed.rows(TYPES))?;
    let unknown = [23, 0x81, 0x83, 255, 256 + dice.below(23), 1 << 32 | dice.below(23), dice.number() | 1 << 60];
    handed.words[row + 1] = unknown[dice.below(7) as usize];
    Some(())
}

fn other_type_tag(dice: &mut Dice, handed: &mut Handed) -> Option<()> {
    let row = any_of(dice, &handed.rows(TYPES))?;
    handed.words[row + 1] = dice.below(23);
    Some(())
}

fn type_count(dice: &mut Dice, handed: &mut Handed) -> Option<()> {
    let row = any_of(dice, &handed.rows(TYPES))?;
    handed.words[row] = if dice.one_in(2) { handed.words[row].wrapping_add(one(dice)) } else { number(dice) };
    Some(())
}

/// A row of a type that has fields, as where it begins and ends.
fn type_with_fields(dice: &mut Dice, handed: &Handed) -> Option<(usize, usize)> {
    let mut rows = handed.rows(TYPES);
    rows.retain(|&row| handed.words[row] > 1);
    let row = any_of(dice, &rows)?;
    Some((row, row + 1 + handed.words[row] as usize))
}

fn type_flags(dice: &mut Dice, handed: &mut Handed) -> Option<()> {
    let (row, _) = type_with_fields(dice, handed)?;
    handed.words[row + 2] = number(dice);
    Some(())
}

fn type_last(dice: &mut Dice, handed: &mut Handed) -> Option<()> {
    let (_, end) = type_with_fields(dice, handed)?;
    handed.words[end - 1] = [1, 255, 256, dice.number()][dice.below(4) as usize];
    Some(())
}

fn type_wide(dice: &mut Dice, handed: &mut Handed) -> Option<()> {
    let (row, end) = type_with_fields(dice, handed)?;
    let at = row + 2 + dice.below((end - row - 2) as u64) as usize;
    handed.words[at] = handed.words[at].wrapping_add(1 << 32);
    Some(())
}

fn visibility(dice: &mut Dice, handed: &mut Handed) -> Option<()> {
    let row = any_of(dice, &handed.rows(GLOBALS))?;
    handed.words[row + 4] = [1, 255, 256, dice.number()][dice.below(4) as usize];
    Some(())
}

fn constant_flag(dice: &mut Dice, handed: &mut Handed) -> Option<()> {
    let row = any_of(dice, &handed.rows(GLOBALS))?;
    handed.words[row + 5] = [1, 2, 256, dice.number()][dice.below(4) as usize];
    Some(())
}

fn hints(dice: &mut Dice, handed: &mut Handed) -> Option<()> {
    let row = any_of(dice, &handed.rows(FUNCTIONS))?;
    handed.words[row + 2] |= 4;
    Some(())
}

fn function_flags(dice: &mut Dice, handed: &mut Handed) -> Option<()> {
    let row = any_of(dice, &handed.rows(FUNCTIONS))?;
    handed.words[row + 2] |= 1 << (8 + dice.below(56));
    Some(())
}

fn debug_tag(dice: &mut Dice, handed: &mut Handed) -> Option<()> {
    let row = any_of(dice, &handed.rows(ATTRIBUTES))?;
    handed.words[row] = [dice.below(7), 7, 256 + dice.below(7), dice.number()][dice.below(4) as usize];
    Some(())
}

fn debug_field(dice: &mut Dice, handed: &mut Handed) -> Option<()> {
    let row = any_of(dice, &handed.rows(ATTRIBUTES))?;
    handed.words[row + 1 + dice.below(6) as usize] = 1 + dice.below(9);
    Some(())
}

fn length_off_by_one(dice: &mut Dice, handed: &mut Handed) -> Option<()> {
    let at = any_of(dice, &handed.lengths())?;
    handed.words[at] = handed.words[at].wrapping_add(one(dice));
    Some(())
}

/// What one length gains another loses, with wrapping. Only if neither wraps it is well-formed.
fn wrapping_lengths(dice: &mut Dice, handed: &mut Handed) -> Option<()> {
    let (one, other) = (any_of(dice, &handed.lengths())?, any_of(dice, &handed.lengths())?);
    let more = number(dice);
    handed.words[one] = handed.words[one].wrapping_add(more);
    handed.words[other] = handed.words[other].wrapping_sub(more);
    Some(())
}

/// Well-formed where no pool is lent.
fn both_lengths(dice: &mut Dice, handed: &mut Handed) -> Option<()> {
    let at = any_of(dice, &handed.lengths())?;
    let more = number(dice);
    handed.words[at] = handed.words[at].wrapping_add(more);
    handed.words[4] = handed.words[4].wrapping_add(more);
    Some(())
}

/// A damaged copy, by the first wound from `first` on for which the sheet has what it needs. Gives the wound too.
pub fn damaged(dice: &mut Dice, whole: &Handed, first: usize) -> (usize, Handed) {
    let mut damaged = whole.clone();
    let mut order = (first..WOUNDS.len()).chain(0..first);
    let wound = order.find(|&wound| WOUNDS[wound].1(dice, &mut damaged).is_some());
    (wound.expect("some wounds need nothing"), damaged)
}

/// How often each wound was refused, and how often what it left was well-formed.
pub struct Wounds([[u64; 2]; WOUNDS.len()]);

impl Wounds {
    pub fn new() -> Self {
        Self([[0; 2]; WOUNDS.len()])
    }

    pub fn add(&mut self, wound: usize, well_formed: bool) {
        self.0[wound][usize::from(well_formed)] += 1;
    }

    /// Each that the call can see has to have been refused.
    pub fn finish(self, pool_is_lent: bool) -> Tally {
        let mut tally = Tally::new("every wound is refused", Against::Demand);
        println!("  wounds, how often they were refused, and how often what they left was well-formed:");
        for ((what, _), [refused, well_formed]) in WOUNDS.iter().zip(self.0) {
            println!("    {what}: {refused}, {well_formed}");
            if pool_is_lent || !OF_POOL.contains(what) {
                tally.case(refused > 0, [0; 3], || format!("no sheet is refused that has {what}"));
            }
        }
        tally
    }
}
