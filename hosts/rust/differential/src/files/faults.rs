//! Files with one, two or three faults, each of which is a refusal by itself: the answer is that of the fault that comes
//! first in reading order, and is known without any reader.

use super::dice::{Dice, Freedom};
use super::made::Made;
use super::plan::lay_end;
use super::wire::{Wire, FILL};

/// A refusal.
#[derive(Clone, Copy)]
pub struct Meant {
    pub number: u64,
    pub stage: u64,
}

const HEADER: u64 = 1;
const SECTIONS: u64 = 2;
const LAST_STAGE: u64 = 9;

/// The section that is read at a stage, from 3 on.
const IDS: [u8; 7] = [1, 7, 5, 4, 6, 2, 3];

/// Nothing at all, and a varint that does not end: every payload begins with one.
const EMPTY: (u64, &[u8]) = (2, &[]);
const OVERLONG: (u64, &[u8]) = (3, &[0xFF; 10]);

/// Payloads that are refused, with the number, by stage from 3 on.
const PAYLOADS: [&[(u64, &[u8])]; 7] = [
    &[EMPTY, OVERLONG, (5, &[1, FILL, FILL, 0, 0, 0, 0, 0]), (6, &[1, FILL, FILL, FILL, 1, 0, 0, 0])],
    &[EMPTY, OVERLONG, (7, &[0xFF, 0xFF, 0xFF, 0xFF, 0x7F])],
    &[
        EMPTY,
        OVERLONG,
        (5, &[1, FILL, FILL, 0, 0, 0, 0, 0, 3]),
        (6, &[1, FILL, FILL, FILL, 2, 0, 0, 0, 3]),
        (8, &[1, FILL, FILL, FILL, 0, 0, 0, 0, 23]),
        (2, &[1, FILL, FILL, FILL, 0, 0, 0, 0, 13]),
    ],
    &[
        EMPTY,
        OVERLONG,
        (5, &[1, FILL, FILL, FILL, FILL, FILL, FILL, 0, 0, 0, 0, 0, 0, 0, 0, 0]),
        (6, &[1, FILL, FILL, FILL, FILL, FILL, FILL, FILL, 1, 0, 0, 0, 0, 0, 0, 0]),
    ],
    &[EMPTY, OVERLONG, (2, &[1, 0, 0, 0])],
    &[EMPTY, OVERLONG, (2, &[1, 0, 0, 0, 0, 1]), (10, &[1, 0, 0, 4, 0, 0])],
    &[
        EMPTY,
        OVERLONG,
        (5, &[0, 0]),
        (6, &[0, FILL, FILL, FILL, 0, FILL, FILL, FILL, 1, FILL, FILL, FILL, 0, 0, 0, 0]),
        (9, &[0, FILL, FILL, FILL, 0, FILL, FILL, FILL, 1, FILL, FILL, FILL, 0, 0, 0, 0, 7]),
    ],
];

/// A section behind the others over which the walk does not come. No file within the limit has room for the padding of
/// a far alignment, so that it ends inside it, or meets another byte.
fn break_walk(dice: &mut Dice, wire: &mut Wire) -> u64 {
    if dice.one_in(4) {
        wire.byte(1);
        wire.bytes(OVERLONG.1);
        return OVERLONG.0;
    }
    let (freedom, alignment) = match dice.below(2) {
        0 => (Freedom::FarAlignment, 1 << 32),
        _ => (Freedom::FarthestAlignment, u64::MAX),
    };
    dice.took(freedom);
    wire.byte(0x81 + dice.below(7) as u8);
    let size = dice.below(3);
    wire.varint(dice, size);
    wire.varint(dice, alignment);
    for _ in 0..dice.below(40) {
        wire.byte(FILL);
    }
    if dice.one_in(2) {
        return 2;
    }
    wire.byte(dice.below(u64::from(FILL)) as u8);
    wire.some_bytes(dice, 9);
    5
}

/// Another magic, or too few bytes for a header.
fn break_header(dice: &mut Dice, file: &mut Vec<u8>) -> u64 {
    if dice.one_in(2) {
        file[dice.below(8) as usize] ^= 1 << dice.below(8);
        return 4;
    }
    file.truncate(dice.below(12) as usize);
    2
}

/// One to three stages, the earliest first.
fn stages(dice: &mut Dice) -> Vec<u64> {
    let count = 1 + dice.below(3);
    match count {
        2 => dice.took(Freedom::TwoFaults),
        3 => dice.took(Freedom::ThreeFaults),
        _ => {}
    }
    let mut stages = Vec::new();
    while (stages.len() as u64) < count {
        let stage = HEADER + dice.below(LAST_STAGE);
        if !stages.contains(&stage) {
            stages.push(stage);
        }
    }
    stages.sort_unstable();
    stages
}

/// A copy with faults at some stages, and the refusal of the first.
pub fn faulty(dice: &mut Dice, made: &Made) -> (Vec<u8>, Meant) {
    let stages = stages(dice);
    let mut plan = made.plan.clone();
    let mut numbers = Vec::new();
    for &stage in stages.iter().filter(|&&stage| stage > SECTIONS) {
        let payloads = PAYLOADS[stage as usize - 3];
        let (number, payload) = payloads[dice.below(payloads.len() as u64) as usize];
        let id = IDS[stage as usize - 3];
        plan.sections.retain(|section| section.0 != id);
        let place = dice.below(plan.sections.len() as u64 + 1) as usize;
        plan.sections.insert(place, (id, payload.to_vec()));
        numbers.push(number);
    }
    let mut wire = plan.lay_sections(dice);
    if stages.contains(&SECTIONS) {
        numbers.insert(0, break_walk(dice, &mut wire));
    } else {
        lay_end(dice, &mut wire);
    }
    if stages[0] == HEADER {
        numbers.insert(0, break_header(dice, &mut wire.0));
    }
    (wire.0, Meant { number: numbers[0], stage: stages[0] })
}
