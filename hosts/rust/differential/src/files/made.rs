//! Makes files from tables, so that the sheet and the pool that a reader has to give are known without any reader.

use super::dice::{Dice, Freedom};
use super::plan::{version, Plan, Version};
use super::wire::{Wire, RARE};
use super::{debug, types};

/// A file to be laid down, and what it says.
pub struct Made {
    pub plan: Plan,
    pub words: Vec<u64>,
    pub pool: Vec<u8>,
}

/// A table's payload, its rows one behind the other, and how many they are.
#[derive(Default)]
pub struct Table {
    pub payload: Option<Vec<u8>>,
    pub words: Vec<u64>,
    pub rows: u64,
}

/// An index of one of `count` rows, mostly one that is there.
pub fn index(dice: &mut Dice, count: u64) -> u64 {
    if dice.one_in(12) {
        dice.number()
    } else {
        dice.below(count + 1)
    }
}

/// A string with characters that a text shows in its own way, or bytes that are no string.
fn string(dice: &mut Dice) -> Vec<u8> {
    const PARTS: [&str; 12] = ["a", "kernel", "x_1", " ", "\"", "\\", "\n", "\0", "é", "λ", "\u{1F980}", "\u{301}"];
    let mut string = Wire::default();
    for _ in 0..dice.below(4) {
        string.bytes(PARTS[dice.below(12) as usize].as_bytes());
    }
    if dice.takes(Freedom::InvalidUtf8, 12) {
        string.byte(0xFF);
        string.some_bytes(dice, 2);
    }
    string.0
}

/// Any bytes: few, or now and then many.
fn constant(dice: &mut Dice) -> Vec<u8> {
    let mut constant = Wire::default();
    let size = if dice.takes(Freedom::LargeConstant, RARE) { 16_384 + dice.below(53_617) } else { dice.below(20) };
    constant.any_bytes(dice, size);
    constant.0
}

/// A payload of entries that stand by their starts. The first may start behind a gap. Without entries the section is
/// absent, or has a count and bytes behind it.
pub fn entries(dice: &mut Dice, width: usize, entries: &[Vec<u8>]) -> Option<Vec<u8>> {
    let mut wire = Wire::default();
    if entries.is_empty() && dice.takes(Freedom::AbsentSection, 2) {
        return None;
    }
    if entries.is_empty() && dice.one_in(4) {
        return Some(vec![0]);
    }
    wire.varint(dice, entries.len() as u64);
    if entries.is_empty() {
        dice.took(Freedom::EmptyTable);
        wire.byte(dice.word() as u8);
        wire.some_bytes(dice, 3);
        return Some(wire.0);
    }
    wire.padding(width as u64);
    let mut data = Wire::default();
    if dice.takes(Freedom::Gap, 6) {
        data.byte(dice.word() as u8);
        data.some_bytes(dice, 4);
    }
    data.long_run(dice, Freedom::LongGap);
    for entry in entries {
        wire.fixed(data.0.len() as u64, width);
        data.bytes(entry);
    }
    wire.bytes(&data.0);
    Some(wire.0)
}

/// Entries that are plain bytes; the rows are their lengths.
fn byte_entries(dice: &mut Dice, width: usize, rows: &[Vec<u8>]) -> Table {
    let words = rows.iter().map(|row| row.len() as u64).collect();
    Table { payload: entries(dice, width, rows), words, rows: rows.len() as u64 }
}

fn type_table(dice: &mut Dice, version: Version, rows: u64) -> Table {
    let (mut wires, mut words) = (Vec::new(), Vec::new());
    for _ in 0..rows {
        let tag = types::tag(dice);
        let (wire, row) = types::entry(dice, tag, version, rows);
        wires.push(wire);
        words.push(row.len() as u64);
        words.extend(row);
    }
    Table { payload: entries(dice, 4, &wires), words, rows }
}

/// Items one behind the other, with bytes behind the last.
fn items(dice: &mut Dice, rows: u64, mut item: impl FnMut(&mut Dice, &mut Wire) -> Vec<u64>) -> Table {
    if rows == 0 && dice.takes(Freedom::AbsentSection, 2) {
        return Table::default();
    }
    let mut wire = Wire::default();
    wire.varint(dice, rows);
    let words = (0..rows).flat_map(|_| item(dice, &mut wire)).collect();
    if dice.takes(Freedom::LeftInPayload, 4) {
        wire.byte(dice.word() as u8);
        wire.some_bytes(dice, 3);
    }
    wire.long_run(dice, Freedom::LongLeft);
    Table { payload: Some(wire.0), words, rows }
}

fn globals(dice: &mut Dice, version: Version, rows: u64, counts: [u64; 3]) -> Table {
    items(dice, rows, |dice, wire| {
        let [strings, types, constants] = counts;
        let mut row = vec![index(dice, strings), index(dice, types), index(dice, constants), dice.number()];
        row.iter().for_each(|&value| wire.varint(dice, value));
        let (mut visibility, mut flag) = (0, 0);
        if version.since(13, 3) {
            visibility = if dice.one_in(2) { dice.below(3) as u8 } else { dice.word() as u8 };
            flag = if dice.one_in(2) { 0 } else { dice.number() };
            wire.byte(visibility);
            wire.varint(dice, flag);
        }
        row.extend([visibility.into(), u64::from(flag != 0)]);
        row
    })
}

/// Functions, and their bodies one behind the other. No function has the hints flag.
fn functions(dice: &mut Dice, rows: u64, strings: u64, types: u64) -> (Table, Vec<u8>) {
    let mut bodies = Vec::new();
    let table = items(dice, rows, |dice, wire| {
        let (name, signature) = (index(dice, strings), index(dice, types));
        let flags = if dice.one_in(4) { dice.word() as u8 } else { dice.below(4) as u8 } & !4;
        let location = dice.number();
        let mut body = Wire::default();
        let longest = if dice.one_in(32) { 300 } else { 12 };
        body.some_bytes(dice, longest);
        wire.varint(dice, name);
        wire.varint(dice, signature);
        wire.byte(flags);
        wire.varint(dice, location);
        wire.varint(dice, body.0.len() as u64);
        wire.bytes(&body.0);
        bodies.extend_from_slice(&body.0);
        vec![name, signature, flags.into(), location, body.0.len() as u64]
    });
    (table, bodies)
}

/// The producer's payload and its word on the sheet.
fn producer(dice: &mut Dice, strings: u64) -> (Option<Vec<u8>>, u64) {
    if strings == 0 || !dice.takes(Freedom::Producer, 2) {
        return (None, 0);
    }
    let index = dice.below(strings);
    let mut wire = Wire::default();
    wire.varint(dice, index);
    wire.some_bytes(dice, 2);
    (Some(wire.0), index + 1)
}

/// The sheet: words 0 to 4, the table of contents, the tables.
fn sheet(version: Version, producer: u64, pool: &[u8], tables: &[Table; 7]) -> Vec<u64> {
    let Version { major, minor, tag } = version;
    let mut contents = vec![major.into(), minor.into(), tag.into(), producer, pool.len() as u64];
    let mut words = Vec::new();
    for table in tables {
        contents.extend([19 + words.len() as u64, table.rows]);
        words.extend_from_slice(&table.words);
    }
    [contents, words].concat()
}

/// Puts the sections in any order.
fn shuffle(dice: &mut Dice, sections: &mut [(u8, Vec<u8>)]) {
    for i in (1..sections.len()).rev() {
        sections.swap(i, dice.below(i as u64 + 1) as usize);
    }
}

/// A file whose tables have fewer than `most` rows each, and often none, with its sections in reading order.
fn tables(dice: &mut Dice, version: Version, most: u64) -> Made {
    let mut rows = || if dice.one_in(3) { 0 } else { dice.below(most) };
    let counts: [u64; 7] = std::array::from_fn(|_| rows());
    let strings: Vec<Vec<u8>> = (0..counts[0]).map(|_| string(dice)).collect();
    let constants: Vec<Vec<u8>> = (0..counts[2]).map(|_| constant(dice)).collect();
    let string_table = byte_entries(dice, 4, &strings);
    let (producer, producer_word) = producer(dice, counts[0]);
    let types = type_table(dice, version, counts[1]);
    let constant_table = byte_entries(dice, 8, &constants);
    let globals = globals(dice, version, counts[3], [counts[0], counts[1], counts[2]]);
    let (functions, bodies) = functions(dice, counts[4], counts[0], counts[1]);
    let (attributes, lists) = debug::tables(dice, counts[5], counts[6], counts[0]);

    let pool = [strings.concat(), constants.concat(), bodies].concat();
    let tables = [string_table, types, constant_table, globals, functions, attributes, lists];
    let words = sheet(version, producer_word, &pool, &tables);
    let [string, types, constant, global, func, debug, _] = tables.map(|table| table.payload);
    let payloads = [(1, string), (7, producer), (5, types), (4, constant), (6, global), (2, func), (3, debug)];
    let sections = payloads.into_iter().filter_map(|(id, payload)| Some((id, payload?))).collect();
    Made { plan: Plan { version, sections }, words, pool }
}

/// A file whose tables have fewer than `most` rows each, with sections that do not count among those that do.
pub fn make(dice: &mut Dice, most: u64) -> Made {
    let version = version(dice);
    let mut made = tables(dice, version, most);
    let plan = &mut made.plan;
    plan.sections.iter().filter(|(_, payload)| *payload == [0]).for_each(|_| dice.took(Freedom::OneZero));
    shuffle(dice, &mut plan.sections);
    if dice.one_in(16) {
        let others = tables(dice, version, 4).plan.sections;
        others.into_iter().for_each(|section| plan.add_earlier(dice, section));
    }
    plan.add_others(dice);
    made
}
