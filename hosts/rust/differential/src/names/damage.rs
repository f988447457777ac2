//! Damage to the bytes of a sheet, which need not leave whole words. Its words are damaged as those of sheets that are
//! handed to the writer.

use crate::files::Dice;

const MOST_BYTES: u64 = 400;

/// One wound; a sheet has bytes.
pub fn hurt(dice: &mut Dice, sheet: &mut Vec<u8>) {
    let at = dice.below(sheet.len() as u64) as usize;
    match dice.below(6) {
        0 => sheet[at] ^= 1 << dice.below(8),
        1 => sheet[at] = dice.word() as u8,
        2 => sheet.truncate(at),
        3 => sheet.insert(at, dice.word() as u8),
        4 => drop(sheet.remove(at)),
        _ => *sheet = (0..dice.below(MOST_BYTES)).map(|_| dice.word() as u8).collect(),
    }
}
