//! Debug sections: attributes of every tag, and lists of their ids.

use super::dice::{Dice, Freedom};
use super::made::{index, Table};
use super::wire::{Wire, RARE};

/// How many fields a tag has: Unknown, DICompileUnit, DIFile, DILexicalBlock, DILoc, DISubprogram, CallSite.
const FIELDS: [usize; 7] = [0, 1, 2, 4, 4, 6, 2];

/// An attribute, now and then with bytes left behind its fields, and its row.
fn attribute(dice: &mut Dice, data: &mut Wire, strings: u64) -> [u64; 7] {
    let tag = dice.below(7);
    let mut row = [0; 7];
    row[0] = tag;
    data.byte(tag as u8);
    for field in &mut row[1..=FIELDS[tag as usize]] {
        *field = index(dice, strings);
        data.varint(dice, *field);
    }
    if dice.takes(Freedom::LeftInEntry, 8) {
        data.byte(dice.word() as u8);
        data.some_bytes(dice, 1);
    }
    row
}

/// A count, padding to `width`, and the numbers.
fn padded(dice: &mut Dice, wire: &mut Wire, width: usize, numbers: &[u64]) {
    wire.varint(dice, numbers.len() as u64);
    wire.padding(width as u64);
    numbers.iter().for_each(|&number| wire.fixed(number, width));
}

/// Lists of ids. Before the first there may be ids that belong to none.
fn lists(dice: &mut Dice, rows: u64) -> (Vec<u64>, Vec<u64>, Table) {
    let (mut starts, mut table) = (Vec::new(), Table { rows, ..Table::default() });
    let mut ids = Vec::new();
    if dice.takes(Freedom::IdsBeforeLists, 4) {
        ids = vec![dice.word(); 1 + dice.below(2) as usize];
    }
    for _ in 0..rows {
        starts.push(ids.len() as u64);
        let size = if dice.takes(Freedom::LongDebugList, RARE) { 200 } else { dice.below(4) };
        let list: Vec<u64> = (0..size).map(|_| index(dice, 9)).collect();
        table.words.push(list.len() as u64);
        table.words.extend_from_slice(&list);
        ids.extend(list);
    }
    (starts, ids, table)
}

/// The attributes, with the payload of both, and the lists.
pub fn tables(dice: &mut Dice, attributes: u64, lists_rows: u64, strings: u64) -> (Table, Table) {
    if attributes == 0 && lists_rows == 0 && dice.takes(Freedom::AbsentSection, 2) {
        return Default::default();
    }
    let (list_starts, ids, list_table) = lists(dice, lists_rows);
    let (mut data, mut starts, mut words) = (Wire::default(), Vec::new(), Vec::new());
    if dice.takes(Freedom::Gap, 6) {
        data.byte(dice.word() as u8);
        data.some_bytes(dice, 3);
    }
    data.long_run(dice, Freedom::LongGap);
    for _ in 0..attributes {
        starts.push(data.0.len() as u64);
        words.extend(attribute(dice, &mut data, strings));
    }
    let mut wire = Wire::default();
    padded(dice, &mut wire, 4, &list_starts);
    padded(dice, &mut wire, 8, &ids);
    padded(dice, &mut wire, 4, &starts);
    wire.bytes(&data.0);
    (Table { payload: Some(wire.0), words, rows: attributes }, list_table)
}
