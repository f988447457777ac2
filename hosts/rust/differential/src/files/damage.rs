//! Damaged copies: bytes changed, cut, put in or taken out, in one payload or anywhere in the file.

use super::dice::Dice;
use super::made::Made;
use super::wire::{Wire, FILL};

fn place(dice: &mut Dice, bytes: &[u8]) -> usize {
    dice.below(bytes.len() as u64) as usize
}

/// Puts bytes over those at a place, and lengthens the data where they reach further.
fn overwrite(bytes: &mut Vec<u8>, at: usize, new: &[u8]) {
    let end = bytes.len().min(at + new.len());
    bytes.splice(at..end, new.iter().copied());
}

/// A number of any size as a varint.
fn any_varint(dice: &mut Dice) -> Vec<u8> {
    let mut wire = Wire::default();
    let value = if dice.one_in(2) { dice.below(9) } else { dice.number() };
    wire.varint(dice, value);
    wire.0
}

/// A byte of a padding, or one that looks so.
fn break_padding(dice: &mut Dice, bytes: &mut [u8]) {
    let fills: Vec<usize> = (0..bytes.len()).filter(|&i| bytes[i] == FILL).collect();
    if !fills.is_empty() {
        bytes[fills[dice.below(fills.len() as u64) as usize]] = dice.word() as u8;
    }
}

/// 2^64 - 1 as a varint.
const LARGEST: [u8; 10] = [0xFF, 0xFF, 0xFF, 0xFF, 0xFF, 0xFF, 0xFF, 0xFF, 0xFF, 1];

/// One wound.
fn hurt(dice: &mut Dice, bytes: &mut Vec<u8>) {
    if bytes.is_empty() {
        return bytes.push(dice.word() as u8);
    }
    let at = place(dice, bytes);
    match dice.below(12) {
        0 => bytes[at] = dice.word() as u8,
        1 => bytes[at] ^= 1 << dice.below(8),
        2 => bytes.truncate(at),
        3 => bytes.insert(at, dice.word() as u8),
        4 => drop(bytes.remove(at)),
        5 => overwrite(bytes, at, &[0xFF; 10]),
        6 => overwrite(bytes, at, &LARGEST),
        7 => overwrite(bytes, at, &any_varint(dice)),
        8 => drop(bytes.splice(..1, any_varint(dice))),
        9 => overwrite(bytes, at & !3, &(dice.below(24) as u32).to_le_bytes()),
        10 => overwrite(bytes, at & !7, &dice.number().to_le_bytes()),
        _ => break_padding(dice, bytes),
    }
}

/// A damaged copy. A wound in one payload leaves the walk over the sections whole.
pub fn damaged(dice: &mut Dice, made: &Made) -> Vec<u8> {
    let mut plan = made.plan.clone();
    let inside = !plan.sections.is_empty() && !dice.one_in(4);
    if inside {
        let section = dice.below(plan.sections.len() as u64) as usize;
        hurt(dice, &mut plan.sections[section].1);
    }
    let mut file = plan.lay(dice);
    if !inside || dice.one_in(16) {
        hurt(dice, &mut file);
    }
    file
}
