//! What a run came upon. Each answer that the call can give has to have been given, and no other; and so has each kind
//! of call and of row.

use std::collections::BTreeMap;

use boundary::{Answer, ABSENT, FULL, SHEET};

use super::traits::Traits;
use crate::kinds::kinds;
use crate::tally::{Against, Tally};

const LEAST_CALLS: u64 = 200_000;

/// The answers: 0 is no refusal.
const ANSWERS: [u64; 4] = [0, FULL, SHEET, ABSENT];

kinds! {
    NoBytes = "an output of 0 bytes for a row that is there",
    ByteTooSmall = "an output that is a byte too small",
    Exact = "an output that fits exactly",
    Larger = "an output with bytes to spare",
    TooLong = "a name of more than 65,536 bytes",
    Unknown = "a name with a \"?\"",
    Last = "the last row",
    Behind = "the row behind the last",
    Farthest = "row 2^64 - 1 of a sheet that is well-formed",
    NoTypes = "a row of a sheet without types",
    OddSheet = "a sheet that is not whole words",
    NoSheet = "a sheet of no bytes",
}

pub struct Counts {
    answers: BTreeMap<u64, u64>,
    kinds: [u64; KINDS.len()],
    pub traits: Traits,
}

impl Counts {
    pub fn new() -> Self {
        Self { answers: BTreeMap::new(), kinds: [0; KINDS.len()], traits: Traits::default() }
    }

    pub fn met(&mut self, kind: Kind, met: bool) {
        self.kinds[kind as usize] += u64::from(met);
    }

    /// A call, and what the library answered.
    pub fn call(&mut self, sheet: &[u8], row: u64, answer: Answer) {
        *self.answers.entry(answer.refusal).or_default() += 1;
        self.met(Kind::Farthest, row == u64::MAX && answer == Answer::refused(ABSENT));
        self.met(Kind::OddSheet, sheet.len() % 8 != 0 && answer == Answer::refused(SHEET));
        self.met(Kind::NoSheet, sheet.is_empty() && answer == Answer::refused(SHEET));
    }

    pub fn finish(self) -> Tally {
        let mut tally = Tally::new("every answer and kind occurs", Against::Demand);
        let line: Vec<String> = self.answers.iter().map(|(number, count)| format!("{number}: {count}")).collect();
        println!("  answers, as number and how often; 0 is an acceptance: {}", line.join(", "));
        let met: Vec<u64> = self.answers.keys().copied().collect();
        tally.case(met == ANSWERS, [0; 3], || format!("it met {met:?}, and {ANSWERS:?} was expected"));
        let calls = self.answers.values().sum::<u64>();
        tally.case(calls >= LEAST_CALLS, [0; 3], || format!("only {calls} calls"));
        println!("  calls of a kind, and how often:");
        for (what, count) in KINDS.iter().zip(self.kinds) {
            println!("    {what}: {count}");
            tally.case(count > 0, [0; 3], || format!("there was never {what}"));
        }
        self.traits.finish(&mut tally);
        tally
    }
}
