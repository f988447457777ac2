//! What a history is about: a cache, the files that are put, and the instances that call.

use std::collections::BTreeSet;

use boundary::Cache;

use super::calls::{Asked, Call};
use crate::tally::Random;

/// Slots are seldom larger.
const LARGE: usize = 2048;
/// How many calls a history has for each slot, and how many more.
const CALLS: (usize, usize) = (3, 60);

pub struct History<'f> {
    pub calls: Cache,
    /// The bytes of a slot.
    pub size: usize,
    pub files: &'f [Vec<u8>],
    pub instances: Vec<u64>,
    /// One of so many calls is a drop.
    drops: u64,
}

/// One of several.
pub fn any<'a, T>(random: &mut Random, of: &'a [T]) -> &'a T {
    &of[random.below(of.len() as u64) as usize]
}

/// The number of a constant, mostly one of the first.
fn index(random: &mut Random) -> u64 {
    match random.below(16) {
        0 => random.number(),
        1..=3 => random.below(5),
        _ => random.below(2),
    }
}

/// The size of a slot: that of a file, a byte less, as much as any file needs, or nothing.
fn slot_size(random: &mut Random, files: &[Vec<u8>]) -> usize {
    let most = if random.one_in(16) { usize::MAX } else { LARGE };
    let sizes: Vec<usize> = files.iter().map(Vec::len).filter(|&size| size <= most).chain([0]).collect();
    let largest = sizes.iter().fold(0, |largest, &size| largest.max(size));
    match random.below(16) {
        0 => 0,
        1..=4 => *any(random, &sizes),
        5..=7 => any(random, &sizes).saturating_sub(1),
        _ => largest + random.below(40) as usize,
    }
}

/// Numbers in a row, numbers as addresses are, and such that share one or both of the places where the library notes them.
const STEPS: [u64; 4] = [1, 4096, 1 << 20, 1 << 40];

/// Few, about half as many as there are slots, or more; one step from another or any. 0 and 2^64 - 1 are among them.
fn instances(random: &mut Random, slots: usize) -> Vec<u64> {
    let count = match random.below(4) {
        0 => 3,
        1 => slots / 2,
        _ => slots + 2 + random.below(slots as u64 / 4) as usize,
    };
    let mut next = random.number();
    let step = random.one_in(2).then(|| *any(random, &STEPS));
    let mut instances = BTreeSet::from([0, u64::MAX]);
    while instances.len() < count {
        next = step.map_or_else(|| random.word(), |step| next.wrapping_add(step));
        instances.insert(next);
    }
    instances.into_iter().collect()
}

impl<'f> History<'f> {
    pub fn any(random: &mut Random, calls: Cache, files: &'f [Vec<u8>]) -> Self {
        let size = slot_size(random, files);
        let instances = instances(random, calls.slots);
        Self { calls, size, files, instances, drops: *any(random, &[5, 50]) }
    }

    pub fn instance(&self, random: &mut Random) -> u64 {
        if random.one_in(32) {
            random.number()
        } else {
            *any(random, &self.instances)
        }
    }

    fn file(&self, random: &mut Random) -> Option<&'f [u8]> {
        match random.below(64) {
            0 => None,
            1 => Some(&[]),
            _ => Some(any(random, self.files).as_slice()),
        }
    }

    /// Any call of an instance.
    pub fn call_of(&self, random: &mut Random, instance: u64) -> Call<'f> {
        let asked = if random.one_in(self.drops) {
            Asked::Drop
        } else if random.one_in(3) {
            Asked::Fetch(index(random))
        } else {
            Asked::Put(self.file(random))
        };
        Call { instance, asked }
    }

    /// A call of an instance whose slot or row was damaged, mostly one that shows it.
    pub fn call_after(&self, random: &mut Random, instance: u64) -> Call<'f> {
        if random.one_in(3) {
            self.call_of(random, instance)
        } else {
            Call { instance, asked: Asked::Fetch(index(random)) }
        }
    }

    /// All calls. Half of the time there is a put of every instance first, so that slots get scarce.
    pub fn all_calls(&self, random: &mut Random) -> Vec<Call<'f>> {
        let mut calls = Vec::new();
        let passing = self.files.iter().find(|file| file.len() <= self.size && boundary::measure(file).refusal == 0);
        if let (Some(file), true) = (passing, random.one_in(2)) {
            calls.extend(self.instances.iter().map(|&instance| Call { instance, asked: Asked::Put(Some(file)) }));
        }
        for _ in 0..CALLS.0 * self.calls.slots + CALLS.1 {
            let instance = self.instance(random);
            calls.push(self.call_of(random, instance));
        }
        calls
    }
}
