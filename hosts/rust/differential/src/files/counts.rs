//! What a run came upon: accepted files, refusals by number and stage, classes, and files on which decoder.rs ran out of
//! memory.

use std::collections::BTreeMap;

use super::foretold::Class;
use crate::memory::MEMORY;
use crate::tally::{Against, Report, Tally};

/// The refusals that reading and the views can give: a stage and its numbers.
pub const REACHABLE: [(u64, &[u64]); 11] = [
    (0, &[1]),
    (1, &[2, 4]),
    (2, &[2, 3, 5]),
    (3, &[2, 3, 5, 6]),
    (4, &[2, 3, 7]),
    (5, &[2, 3, 5, 6, 8]),
    (6, &[2, 3, 5, 6]),
    (7, &[2, 3]),
    (8, &[2, 3, 10]),
    (9, &[2, 3, 5, 6, 9]),
    (10, &[11, 14]),
];

/// The entries of docs/DIFFERENCES.md by which a file can part.
const ENTRIES: [u8; 10] = [5, 11, 12, 13, 14, 15, 16, 17, 18, 22];

/// So many files at least have to be accepted, and so many of their types named.
const LEAST_ACCEPTED: u64 = 200_000;
const LEAST_NAMED: u64 = 150_000;

/// Of a hundred files decoder.rs has to answer all but fewer than so many.
const MOST_UNANSWERED: u64 = 1;

/// How many files, and how long the shortest of them is.
struct Kind {
    count: u64,
    shortest: usize,
}

impl Default for Kind {
    fn default() -> Self {
        Self { count: 0, shortest: usize::MAX }
    }
}

impl Kind {
    fn add(&mut self, file: &[u8]) {
        self.count += 1;
        self.shortest = self.shortest.min(file.len());
    }
}

#[derive(Default)]
pub struct Counts {
    pub files: u64,
    pub accepted: u64,
    pub named: u64,
    refused: BTreeMap<(u64, u64), u64>,
    classes: BTreeMap<Class, Kind>,
    apart: BTreeMap<&'static str, Kind>,
}

impl Counts {
    pub fn refused(&mut self, number: u64, stage: u64, times: u64) {
        *self.refused.entry((stage, number)).or_default() += times;
    }

    pub fn class(&mut self, class: Class, file: &[u8]) {
        self.classes.entry(class).or_default().add(file);
    }

    /// A file for which decoder.rs was asked, and ran out of memory.
    pub fn apart(&mut self, what: &'static str, file: &[u8]) {
        self.apart.entry(what).or_default().add(file);
    }

    pub fn unanswered(&self) -> u64 {
        self.apart.values().map(|kind| kind.count).sum()
    }

    /// Prints the counts.
    pub fn finish(self, report: &mut Report) {
        println!("  files: {}; accepted by both sides, with the same text: {}", self.files, self.accepted);
        println!("  types of those, each named by both sides: {}", self.named);
        println!("  refused, and decoder.rs answered, as number@stage and how often:");
        for (stage, numbers) in REACHABLE {
            let count = |number: &u64| self.refused.get(&(stage, *number)).copied().unwrap_or(0);
            let line: Vec<String> = numbers.iter().map(|n| format!("{n}@{stage} {}", count(n))).collect();
            println!("    {}", line.join(", "));
        }
        println!("  where decoder.rs parts, by the entry of docs/DIFFERENCES.md, how often, and the shortest file:");
        for ((entry, cause, then), kind) in &self.classes {
            println!("    {entry}: {cause}: {then}: {}, {} bytes", kind.count, kind.shortest);
        }
        println!("  where decoder.rs was asked, and held more than {MEMORY} bytes:");
        for (what, kind) in &self.apart {
            println!("    {what}: {}, {} bytes", kind.count, kind.shortest);
        }
        report.add(self.most_are_answered());
        report.demand(self.all_occur());
    }

    fn most_are_answered(&self) -> Tally {
        let mut tally = Tally::new("almost all are answered", Against::Demand);
        let unanswered = self.unanswered();
        tally.case(100 * unanswered < MOST_UNANSWERED * self.files, [0; 3], || {
            format!("decoder.rs ran out of memory on {unanswered} of {} files", self.files)
        });
        tally
    }

    /// Each refusal that can be given has to have been given, and no other; and each entry has to have been met.
    fn all_occur(&self) -> Tally {
        let mut tally = Tally::new("every refusal occurs", Against::Demand);
        tally.case(self.accepted >= LEAST_ACCEPTED, [0; 3], || format!("only {} accepted files", self.accepted));
        tally.case(self.named >= LEAST_NAMED, [0; 3], || format!("only {} named types", self.named));
        for (stage, numbers) in REACHABLE {
            for &number in numbers {
                let occurs = self.refused.get(&(stage, number)).is_some_and(|&count| count > 0);
                tally.case(occurs, [0, stage, number], || format!("no file is refused with {number}@{stage}"));
            }
        }
        for &(stage, number) in self.refused.keys() {
            let known = REACHABLE[stage as usize].1.contains(&number);
            tally.case(known, [0, stage, number], || format!("{number}@{stage} was not thought to be reachable"));
        }
        for entry in ENTRIES {
            let met = self.classes.keys().any(|class| class.0 == entry);
            tally.case(met, [0, entry.into(), 0], || format!("no file parts by entry {entry}"));
        }
        tally
    }
}
