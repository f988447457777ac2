//! The fixed list of decoder.rs's answers, which the tests of crate `boundary` replay where no Rust source is at hand.
//! It is written by `differential --write-answers PATH`; each run of the comparison sees that it still holds.

use std::collections::BTreeMap;
use std::fmt::Write;
use std::path::Path;

use dump::Sheet;
use plain::{Reading, Refusal};

use super::dice::Dice;
use super::foretold::{foretell, Outcome};
use super::judge::{ask, Rust};
use super::made::{entries, make};
use super::plan::{Plan, Version};
use super::types::{entry, TAGS};
use super::{damage, shown, smallest};
use crate::tally::{Against, Random, Tally};

const RECORDED: &str = include_str!("../../../boundary/tests/data/answers.txt");

const HEAD: &str = "\
# What `decode_bytecode` of cutile-ir 0.4.0 (src/bytecode/decoder.rs) answers on small files. A line has the file in
# hex; what the library has to answer: 0, or the refusal as number@stage; the row of docs/DIFFERENCES.md by which the
# two part, or -; and the answer of `decode_bytecode`: its text, its error, or that it panics.
# Written by `make answers`, which needs the Rust source: the files are chosen, made and damaged, with a fixed seed, by
# hosts/rust/differential/src/files/answers.rs. `make comparison` sees that each answer is still the one that is given.
";

const SEED: u64 = 3;
const LONGEST: usize = 110;
/// How many files are kept of a kind, and how many are tried.
const OF_A_KIND: u32 = 4;
const TRIES: u32 = 200_000;

/// What decoder.rs answers, in one line.
fn spoken(rust: &Rust) -> String {
    match rust {
        Rust::Text(text) => format!("text \"{}\"", text.escape_default()),
        Rust::Error(_, message) => format!("error \"{}\"", message.escape_default()),
        Rust::Panic(_) => "panic".to_owned(),
    }
}

/// The line of a file that can be given to decoder.rs.
fn line(file: &[u8], reading: &Result<Reading, Refusal>) -> Option<String> {
    let (ours, row, rust) = match reading {
        Ok(_) => ("0".to_owned(), None, ask(file)),
        Err(refusal) => {
            let foretold = foretell(file, refusal);
            if let Outcome::Exhausts(_) = foretold.outcome {
                return None;
            }
            let row = foretold.class.map(|(row, ..)| row);
            (format!("{}@{}", refusal.number, refusal.stage), row, ask(file))
        }
    };
    let row = row.map_or("-".to_owned(), |row| row.to_string());
    Some(format!("{} {ours} {row} {}", shown(file), spoken(&rust)))
}

/// Every kind of type in every class of versions, behind an i32.
fn typed_files(dice: &mut Dice) -> Vec<Vec<u8>> {
    let mut files = Vec::new();
    for (minor, tag) in (2..5).flat_map(|minor| TAGS.map(|tag| (minor, tag))) {
        let version = Version { major: 13, minor, tag: 0 };
        let copies = if matches!(tag, 12..=16 | 20 | 21) { OF_A_KIND } else { 1 };
        for _ in 0..copies {
            let (typed, _) = entry(dice, tag, version, 1);
            let payload = entries(dice, 4, &[vec![3], typed]).expect("a table with rows is there");
            files.push(Plan { version, sections: vec![(5, payload)] }.lay(dice));
        }
    }
    files
}

/// One debug attribute, without lists.
fn one_attribute(data: &[u8]) -> Vec<u8> {
    let head = [0, 0xCB, 0xCB, 0xCB, 0, 0xCB, 0xCB, 0xCB, 1, 0xCB, 0xCB, 0xCB, 0, 0, 0, 0];
    smallest::one_section(3, &[&head, data].concat())
}

/// Attributes of every tag whose fields all differ, an empty one, and a producer at the last string and behind it.
fn chosen_files() -> Vec<Vec<u8>> {
    let mut files: Vec<_> = (0..8).map(|tag| one_attribute(&[tag, 1, 2, 3, 4, 5, 6])).collect();
    files.push(one_attribute(&[]));
    let string = [1, 0xCB, 0xCB, 0xCB, 0, 0, 0, 0, b'a'];
    files.extend([0, 1].map(|index| smallest::sections(&[(1, &string), (7, &[index])])));
    files
}

/// What an accepted file shows: debug tags, flags of functions, globals by version class, and the producer.
fn shows(reading: &Reading) -> Vec<(&'static str, u64)> {
    let words = &reading.words;
    let sheet = Sheet::new(words, &reading.pool);
    let class = if words[0] == 13 { words[1].min(5) } else { 6 };
    let mut shown: Vec<_> = sheet.attributes().iter().map(|attribute| ("attribute", attribute[0])).collect();
    shown.extend(sheet.functions().iter().map(|function| ("function", function[2] & 3)));
    shown.extend(sheet.globals().iter().map(|global| ("global", class << 2 | global[4].min(2))));
    shown.extend([("strings", words[6]), ("constants", words[10]), ("lists", words[18]), ("producer", words[3])]);
    shown
}

/// Small files, whole and damaged, of which a few are kept of each kind.
fn found_files(dice: &mut Dice) -> Vec<Vec<u8>> {
    let mut kept: BTreeMap<(&str, u64), u32> = BTreeMap::new();
    let mut files = Vec::new();
    for _ in 0..TRIES {
        let made = make(dice, 3);
        let file = if dice.one_in(3) { made.plan.lay(dice) } else { damage::damaged(dice, &made) };
        if file.len() > LONGEST {
            continue;
        }
        let kinds = match plain::read(&file) {
            Ok(reading) => shows(&reading),
            Err(refusal) => {
                let detail = refusal.detail as u64;
                vec![("refusal", refusal.number << 8 | refusal.stage << 4 | detail)]
            }
        };
        if kinds.iter().any(|kind| kept.get(kind).copied().unwrap_or(0) < OF_A_KIND) {
            kinds.into_iter().for_each(|kind| *kept.entry(kind).or_default() += 1);
            files.push(file);
        }
    }
    files
}

/// Writes the list anew.
pub fn write(path: &Path) -> std::io::Result<()> {
    let mut random = Random::new(SEED);
    let mut dice = Dice::new(&mut random);
    let shortest = smallest::all().into_iter().map(|smallest| smallest.file).collect();
    let files = [shortest, chosen_files(), typed_files(&mut dice), found_files(&mut dice)].concat();
    let mut list = HEAD.to_owned();
    for line in files.iter().filter_map(|file| line(file, &plain::read(file))) {
        writeln!(list, "{line}").expect("a string takes all that is written");
    }
    std::fs::write(path, list)
}

fn bytes(hex: &str) -> Vec<u8> {
    let digit = |at: usize| u8::from_str_radix(&hex[at..at + 2], 16).expect("two hex digits");
    (0..hex.len()).step_by(2).map(digit).collect()
}

/// Each recorded line is what is said today.
pub fn compare() -> Tally {
    let mut tally = Tally::new("the recorded answers", Against::Rust);
    for recorded in RECORDED.lines().filter(|line| !line.starts_with('#')) {
        let file = bytes(recorded.split(' ').next().unwrap_or(""));
        let today = line(&file, &plain::read(&file));
        tally.case(today.as_deref() == Some(recorded), [file.len() as u64, 0, 0], || {
            format!("recorded: {recorded}, and today: {today:?}")
        });
    }
    tally
}
