//! What the rows had that were named: each kind in each class of versions, with its last field and without; and for
//! each of its fields, which rows it names, which numbers it has and how many.

use std::collections::BTreeMap;
use std::fmt::Debug;

use dump::Sheet;
use plain::fields::{fields, Field};
use plain::Version;

use crate::files::{version_class, CLASSES, TAGS};
use crate::tally::Tally;

/// The first version of each class.
const FIRST: [Version; CLASSES.len()] = [
    Version { major: 0, minor: 0, tag: 0 },
    Version { major: 13, minor: 3, tag: 0 },
    Version { major: 13, minor: 4, tag: 0 },
];

#[derive(Debug, Clone, Copy, PartialEq, Eq, PartialOrd, Ord)]
enum Has {
    Rank(u64),
    LastEarlier,
    Itself,
    Later,
    /// None that the table has, but not 2^64 - 1.
    Behind,
    /// 2^64 - 1.
    Farthest,
    /// The least number of its width, which is `DYNAMIC` in eight bytes.
    Least,
    /// Another that is negative.
    Negative,
}

/// What a field that names rows has to have had, and one that has numbers.
const OF_INDEX: [Has; 5] = [Has::LastEarlier, Has::Itself, Has::Later, Has::Behind, Has::Farthest];
const OF_NUMBERS: [Has; 2] = [Has::Negative, Has::Least];
const OF_LIST: [Has; 4] = [Has::Rank(0), Has::Rank(1), Has::Rank(2), Has::Rank(3)];

/// Which row an index names, in row `row` of `rows`.
fn relation(index: u64, row: u64, rows: u64) -> Option<Has> {
    match index {
        u64::MAX => Some(Has::Farthest),
        _ if index + 1 == row => Some(Has::LastEarlier),
        _ if index == row => Some(Has::Itself),
        _ if index >= rows => Some(Has::Behind),
        _ if index > row => Some(Has::Later),
        _ => None,
    }
}

/// What a number of so many bytes is.
fn sign(bits: u64, width: u8) -> Option<Has> {
    let least = 1 << (8 * u32::from(width) - 1);
    match bits {
        _ if bits == least => Some(Has::Least),
        _ if bits > least => Some(Has::Negative),
        _ => None,
    }
}

/// Takes a list of so many words off the front of a row, and gives what it has.
fn taken(row: &mut &[u64], rank: u64, has: impl Fn(u64) -> Option<Has>) -> Vec<Has> {
    let (list, left) = row.split_at(rank as usize);
    *row = left;
    list.iter().filter_map(|&word| has(word)).chain([Has::Rank(rank)]).collect()
}

/// Whether a row can have a last field in a version.
fn flagged(tag: u64, version: Version) -> bool {
    let fields = fields(tag, version).expect("the tags are known");
    fields.iter().any(|field| matches!(field, Field::Flags | Field::LateFlags))
}

/// The fields behind a tag. Rows of a tag have the same in all versions.
fn fields_of(tag: u64) -> &'static [Field] {
    fields(tag, FIRST[CLASSES.len() - 1]).expect("the tags are known")
}

#[derive(Default)]
pub struct Traits {
    /// By tag, class of versions, and whether the last field is there.
    kinds: BTreeMap<(u64, usize, bool), u64>,
    /// By tag and field.
    fields: BTreeMap<(u64, usize, Has), u64>,
}

impl Traits {
    /// A row that was named.
    pub fn add(&mut self, words: &[u64], number: u64) {
        let types = Sheet::new(words, &[]).types();
        let row = types[number as usize];
        let relation = |index| relation(index, number, types.len() as u64);
        let (tag, mut left, mut flags) = (row[0], &row[1..], 0);
        for (place, field) in fields_of(tag).iter().enumerate() {
            let (&word, behind) = left.split_first().expect("the row is well-formed");
            left = behind;
            let has: Vec<Has> = match field {
                Field::Index => relation(word).into_iter().collect(),
                Field::Indices => taken(&mut left, word, relation),
                Field::Numbers(width) => taken(&mut left, word, |bits| sign(bits, *width)),
                Field::Flags => {
                    flags = word;
                    Vec::new()
                }
                _ => Vec::new(),
            };
            has.into_iter().for_each(|has| *self.fields.entry((tag, place, has)).or_default() += 1);
        }
        *self.kinds.entry((tag, version_class(words), flags & 1 != 0)).or_default() += 1;
    }

    /// Each of these has to have been there. Prints how often the rarest was.
    pub fn finish(self, tally: &mut Tally) {
        demand(tally, "kinds of rows in their versions, with a last field and without", &self.kinds, &wanted_kinds());
        demand(tally, "bounds, numbers and ranks of their fields", &self.fields, &wanted_fields());
    }
}

fn wanted_kinds() -> Vec<(u64, usize, bool)> {
    let mut wanted = Vec::new();
    for tag in TAGS {
        for (class, &version) in FIRST.iter().enumerate() {
            wanted.push((tag, class, false));
            wanted.extend(flagged(tag, version).then_some((tag, class, true)));
        }
    }
    wanted
}

fn wanted_fields() -> Vec<(u64, usize, Has)> {
    let mut wanted = Vec::new();
    for tag in TAGS {
        for (place, field) in fields_of(tag).iter().enumerate() {
            let has = match field {
                Field::Index => OF_INDEX.to_vec(),
                Field::Indices => [&OF_INDEX[..], &OF_LIST].concat(),
                Field::Numbers(_) => [&OF_NUMBERS[..], &OF_LIST].concat(),
                _ => Vec::new(),
            };
            wanted.extend(has.into_iter().map(|has| (tag, place, has)));
        }
    }
    wanted
}

fn demand<K: Ord + Debug>(tally: &mut Tally, what: &str, met: &BTreeMap<K, u64>, wanted: &[K]) {
    let count = |key: &K| met.get(key).copied().unwrap_or(0);
    let rarest = wanted.iter().map(count).min().unwrap_or(0);
    println!("  {what}: {}, each {rarest} times or more", wanted.len());
    for key in wanted {
        tally.case(count(key) > 0, [0; 3], || format!("{what}: there was never {key:?}"));
    }
}
