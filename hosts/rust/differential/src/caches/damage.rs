//! What a host may do between calls: to rows of the owner table, to bytes of the slots, and to the lengths that it
//! lends.

use boundary::OWNER_BYTES;

use super::history::{any, History};
use super::lent::{Lengths, Lent};
use crate::tally::Random;

/// Gives the instance that it is about, if the cache has what is to be damaged.
type Wound = fn(&mut Random, &History, &mut Lent) -> Option<u64>;

pub const WOUNDS: [(&str, Wound); 13] = [
    ("a mark other than 1", other_mark),
    ("a mark cleared, and no other word", mark_cleared),
    ("any words in a free row", free_row),
    ("a free row taken by any instance", row_taken),
    ("an instance in two taken rows", two_rows),
    ("an instance renamed", renamed),
    ("a length above the slot's", too_long),
    ("a shorter length", shorter),
    ("a longer length within the slot", longer),
    ("a byte of the table", byte_of_table),
    ("a byte of a file", byte_of_file),
    ("bytes behind a file", bytes_behind),
    ("another file in a slot", other_file),
];

/// A slot whose row is taken, or free.
fn slot(random: &mut Random, history: &History, lent: &Lent, taken: bool) -> Option<usize> {
    let slots: Vec<usize> = (0..history.calls.slots).filter(|&slot| (lent.row(slot)[0] != 0) == taken).collect();
    (!slots.is_empty()).then(|| *any(random, &slots))
}

/// Changes a taken row. Gives the instance that it had.
fn change(
    random: &mut Random,
    history: &History,
    lent: &mut Lent,
    to: impl FnOnce(&mut Random, [u64; 3]) -> [u64; 3],
) -> Option<u64> {
    let slot = slot(random, history, lent, true)?;
    let row = lent.row(slot);
    lent.set_row(slot, to(random, row));
    Some(row[1])
}

fn other_mark(random: &mut Random, history: &History, lent: &mut Lent) -> Option<u64> {
    change(random, history, lent, |random, [_, instance, length]| [random.number().max(2), instance, length])
}

fn mark_cleared(random: &mut Random, history: &History, lent: &mut Lent) -> Option<u64> {
    change(random, history, lent, |_, [_, instance, length]| [0, instance, length])
}

fn free_row(random: &mut Random, history: &History, lent: &mut Lent) -> Option<u64> {
    let slot = slot(random, history, lent, false)?;
    let instance = history.instance(random);
    lent.set_row(slot, [0, instance, random.number()]);
    Some(instance)
}

fn row_taken(random: &mut Random, history: &History, lent: &mut Lent) -> Option<u64> {
    let slot = slot(random, history, lent, false)?;
    let instance = history.instance(random);
    lent.set_row(slot, [random.number().max(1), instance, random.below(history.size as u64 + 1)]);
    Some(instance)
}

fn two_rows(random: &mut Random, history: &History, lent: &mut Lent) -> Option<u64> {
    let [one, other] = [(); 2].map(|()| slot(random, history, lent, true));
    let ([_, instance, _], [mark, _, length]) = (lent.row(one?), lent.row(other?));
    lent.set_row(other?, [mark, instance, length]);
    (one != other).then_some(instance)
}

fn renamed(random: &mut Random, history: &History, lent: &mut Lent) -> Option<u64> {
    change(random, history, lent, |random, [mark, _, length]| [mark, history.instance(random), length])
}

fn too_long(random: &mut Random, history: &History, lent: &mut Lent) -> Option<u64> {
    change(random, history, lent, |random, [mark, instance, _]| {
        let over = if random.one_in(2) { 0 } else { random.word() >> 1 };
        [mark, instance, history.size as u64 + 1 + over]
    })
}

fn shorter(random: &mut Random, history: &History, lent: &mut Lent) -> Option<u64> {
    change(random, history, lent, |random, [mark, instance, length]| [mark, instance, random.below(length.max(1))])
}

fn longer(random: &mut Random, history: &History, lent: &mut Lent) -> Option<u64> {
    change(random, history, lent, |random, [mark, instance, length]| {
        let left = (history.size as u64).saturating_sub(length);
        [mark, instance, length.saturating_add(random.below(left + 1))]
    })
}

fn byte_of_table(random: &mut Random, history: &History, lent: &mut Lent) -> Option<u64> {
    let slot = random.below(history.calls.slots as u64) as usize;
    let at = slot * OWNER_BYTES + random.below(OWNER_BYTES as u64) as usize;
    lent.owners.first(at + 1)[at] = random.word() as u8;
    Some(lent.row(slot)[1])
}

/// A taken slot and the length of its file; none if a slot has no bytes, or the file more than a slot.
fn file(random: &mut Random, history: &History, lent: &Lent) -> Option<(usize, usize)> {
    let slot = slot(random, history, lent, true)?;
    let length = usize::try_from(lent.row(slot)[2]).ok()?;
    (length <= history.size && history.size > 0).then_some((slot, length))
}

fn byte_of_file(random: &mut Random, history: &History, lent: &mut Lent) -> Option<u64> {
    let (slot, length) = file(random, history, lent)?;
    let at = slot * history.size + random.below(length.max(1) as u64) as usize;
    lent.cache.first(at + 1)[at] ^= 1 << random.below(8);
    Some(lent.row(slot)[1])
}

fn bytes_behind(random: &mut Random, history: &History, lent: &mut Lent) -> Option<u64> {
    let (slot, length) = file(random, history, lent)?;
    lent.cache.first((slot + 1) * history.size)[slot * history.size + length..].fill(random.word() as u8);
    Some(lent.row(slot)[1])
}

/// Mostly one that is refused.
fn other_file(random: &mut Random, history: &History, lent: &mut Lent) -> Option<u64> {
    let (slot, _) = file(random, history, lent)?;
    let files = [(); 3].map(|()| any(random, history.files));
    let file = files.into_iter().find(|file| boundary::measure(file).refusal != 0).unwrap_or(files[0]);
    let [mark, instance, _] = lent.row(slot);
    lent.cache.first((slot + 1) * history.size)[slot * history.size..].get_mut(..file.len())?.copy_from_slice(file);
    lent.set_row(slot, [mark, instance, file.len() as u64]);
    Some(instance)
}

/// One wound: which it is, and the instance that it is about. A file can be refused in many ways, so that the last
/// wound comes more often than the others.
pub fn hurt(random: &mut Random, history: &History, lent: &mut Lent) -> Option<(usize, u64)> {
    let last = WOUNDS.len() - 1;
    let wound = if random.one_in(3) { last } else { random.below(last as u64) as usize };
    let instance = WOUNDS[wound].1(random, history, lent)?;
    Some((wound, instance))
}

/// Lengths that are not those of the buffer, or of the table; some of them are those of another cache.
pub fn other_lengths(random: &mut Random, slots: usize, Lengths { cache, owners }: Lengths) -> Lengths {
    let other = |length: Option<usize>, way: u64, step: usize| match way {
        0 => length.map(|length| length.saturating_sub(1)),
        1 => length.map(|length| length + 1),
        2 => length.map(|length| length.saturating_sub(step)),
        3 => length.map(|length| length + step),
        4 => Some(0),
        _ => None,
    };
    let way = random.below(6);
    if random.one_in(2) {
        Lengths { cache: other(cache, way, slots), owners }
    } else {
        Lengths { cache, owners: other(owners, way, OWNER_BYTES) }
    }
}
