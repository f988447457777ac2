//! A file before its bytes are laid down: a version and sections.

use oracle::bytecode::MAGIC;
pub use plain::Version;

use super::dice::{Dice, Freedom};
use super::wire::Wire;

/// Versions at which a class begins, and their neighbours.
const VERSIONS: [(u8, u8, u16); 12] = [
    (13, 1, 0),
    (13, 2, 0),
    (13, 2, 65535),
    (13, 3, 0),
    (13, 3, 1),
    (13, 3, 65535),
    (13, 4, 0),
    (13, 4, 7),
    (12, 255, 9),
    (14, 0, 0),
    (0, 4, 0),
    (255, 255, 65535),
];

pub fn version(dice: &mut Dice) -> Version {
    let (major, minor, tag) = match dice.below(16) {
        0 | 1 => (dice.word() as u8, dice.word() as u8, dice.word() as u16),
        2..=4 => VERSIONS[dice.below(VERSIONS.len() as u64) as usize],
        5 => (13, 5 + dice.below(251) as u8, dice.below(2) as u16),
        _ => (13, 2 + dice.below(3) as u8, 0),
    };
    match (major, minor) {
        (13, 5..) => dice.took(Freedom::LaterMinor),
        (14, 0) => dice.took(Freedom::LaterMajor),
        _ => {}
    }
    Version { major, minor, tag }
}

#[derive(Clone)]
pub struct Plan {
    pub version: Version,
    pub sections: Vec<(u8, Vec<u8>)>,
}

const ALIGNMENTS: [u64; 14] = [0, 1, 2, 3, 4, 5, 7, 8, 12, 16, 24, 31, 64, 100];
const LARGE_ALIGNMENTS: [u64; 2] = [256, 260];

fn alignment(dice: &mut Dice) -> u64 {
    let of = if dice.one_in(32) { &LARGE_ALIGNMENTS[..] } else { &ALIGNMENTS };
    let alignment = of[dice.below(of.len() as u64) as usize];
    dice.took(match alignment {
        0 | 1 => Freedom::SmallAlignment,
        256 => Freedom::Alignment256,
        260 => Freedom::Alignment260,
        _ if alignment.is_power_of_two() => Freedom::Aligned,
        _ => Freedom::OddAlignment,
    });
    alignment
}

impl Plan {
    /// A section before the one of the same id, if there is one. It is valid itself, and does not count.
    pub fn add_earlier(&mut self, dice: &mut Dice, (id, payload): (u8, Vec<u8>)) {
        if let Some(counts) = self.sections.iter().position(|section| section.0 == id) {
            dice.took(Freedom::RepeatedWhole);
            self.sections.insert(dice.below(counts as u64 + 1) as usize, (id, payload));
        }
    }

    /// Sections of no table before, between and behind those that count: ids without meaning, and earlier ones of an
    /// id that comes again, whose payload is not parsed.
    pub fn add_others(&mut self, dice: &mut Dice) {
        while dice.one_in(3) {
            let place = dice.below(self.sections.len() as u64 + 1) as usize;
            let id = match self.sections.get(place) {
                Some(&(later, _)) if dice.takes(Freedom::Repeated, 2) => later,
                _ => {
                    dice.took(Freedom::UnknownId);
                    8 + dice.below(120) as u8
                }
            };
            let mut payload = Wire::default();
            payload.some_bytes(dice, 9);
            self.sections.insert(place, (id, payload.0));
        }
    }

    /// The file: each number in any spelling, any alignment, either end marker, and bytes behind it.
    pub fn lay(&self, dice: &mut Dice) -> Vec<u8> {
        let mut wire = self.lay_sections(dice);
        lay_end(dice, &mut wire);
        wire.0
    }

    /// The file without its end marker.
    pub fn lay_sections(&self, dice: &mut Dice) -> Wire {
        let mut wire = Wire::default();
        wire.bytes(&MAGIC);
        wire.bytes(&[self.version.major, self.version.minor]);
        wire.fixed(self.version.tag.into(), 2);
        for (id, payload) in &self.sections {
            let aligned = dice.one_in(2);
            wire.byte(id | u8::from(aligned) << 7);
            wire.varint(dice, payload.len() as u64);
            if aligned {
                let alignment = alignment(dice);
                wire.varint(dice, alignment);
                wire.padding(alignment);
            }
            wire.bytes(payload);
        }
        wire
    }
}

/// Either end marker, and bytes behind it.
pub fn lay_end(dice: &mut Dice, wire: &mut Wire) {
    wire.byte(u8::from(dice.takes(Freedom::EndWithTopBit, 2)) << 7);
    if dice.takes(Freedom::AfterEnd, 2) {
        wire.byte(dice.word() as u8);
        wire.some_bytes(dice, 3);
    }
    wire.long_run(dice, Freedom::LongTail);
}
