//! What a run came upon. Each refusal that a call can give has to have been given, and no other; and so has each kind
//! of call and of damage.

use std::collections::{BTreeMap, BTreeSet};

use boundary::{Answer, Cache, ABSENT, CACHE, FULL, NO_SLOT, OWNER_BYTES, SESSION, SHEET, STAGE_CALL};

use super::calls::{Asked, Call};
use super::damage::WOUNDS;
use super::lent::Lengths;
use crate::files::REACHABLE;
use crate::kinds::kinds;
use crate::tally::{Against, Tally};

const LEAST_CALLS: u64 = 200_000;

pub const CACHES: [Cache; 2] = [CACHE, SESSION];

/// The calls, and how each is refused where the file is not: at stage 10.
const CALLS: [(&str, &[u64]); 3] =
    [("put", &[FULL, SHEET, NO_SLOT]), ("fetch", &[SHEET, ABSENT]), ("drop", &[SHEET, ABSENT])];

/// Which of `CACHES` it is.
pub fn which(calls: Cache) -> usize {
    usize::from(calls.slots == SESSION.slots)
}

/// Which of `CALLS` it is.
pub fn number(asked: Asked) -> usize {
    match asked {
        Asked::Put(_) => 0,
        Asked::Fetch(_) => 1,
        Asked::Drop => 2,
    }
}

kinds! {
    ExactFit = "a file that fits exactly, put",
    ByteTooLarge = "a file that is a byte too large",
    OddBuffer = "a buffer that is not of equal slots",
    OtherTable = "an owner table of another length",
    EmptyBuffer = "an empty buffer",
    NullBuffer = "a null buffer",
    NullTable = "a null owner table",
    NullFile = "a null file",
    PutOfFirst = "a put of instance 0",
    PutOfLast = "a put of instance 2^64 - 1",
    FetchOfFirst = "a fetch of instance 0",
    FetchOfLast = "a fetch of instance 2^64 - 1",
    Scarce = "a put without a slot, once more in another cache",
}

/// An answer as its stage and number; 0 and 0 is an acceptance.
type Refused = (u64, u64);
type Answers = BTreeMap<Refused, u64>;

/// What a call can answer of a file. No slot here has room for one over its limit, and a drop looks at none.
fn of_file(call: usize) -> BTreeSet<Refused> {
    let first = [0, 1, STAGE_CALL][call];
    let stages = REACHABLE.iter().filter(|(stage, _)| (first..STAGE_CALL).contains(stage));
    stages.flat_map(|(stage, numbers)| numbers.iter().map(|number| (*stage, *number))).collect()
}

pub struct Counts {
    calls: u64,
    /// By cache and call.
    answers: [[Answers; 3]; 2],
    kinds: [u64; KINDS.len()],
    /// How often each wound was given, and how often the call behind it was refused with 12.
    wounds: [[u64; 2]; WOUNDS.len()],
}

impl Counts {
    pub fn new() -> Self {
        Self { calls: 0, answers: Default::default(), kinds: [0; KINDS.len()], wounds: [[0; 2]; WOUNDS.len()] }
    }

    pub fn kind(&mut self, kind: Kind, times: u64) {
        self.kinds[kind as usize] += times;
    }

    fn met(&mut self, kind: Kind, met: bool) {
        self.kind(kind, met.into());
    }

    pub fn wound(&mut self, wound: usize, answer: Answer) {
        let [given, refused] = &mut self.wounds[wound];
        *given += 1;
        *refused += u64::from(answer.refusal == SHEET);
    }

    fn lengths(&mut self, slots: usize, Lengths { cache, owners }: Lengths) {
        self.met(Kind::OddBuffer, cache.unwrap_or(0) % slots != 0);
        self.met(Kind::OtherTable, owners.is_some_and(|length| length != slots * OWNER_BYTES));
        self.met(Kind::EmptyBuffer, cache == Some(0));
        self.met(Kind::NullBuffer, cache.is_none());
        self.met(Kind::NullTable, owners.is_none());
    }

    pub fn call(&mut self, calls: Cache, call: &Call, lengths: Lengths, answer: Answer) {
        self.calls += 1;
        let answers = &mut self.answers[which(calls)][number(call.asked)];
        *answers.entry((answer.stage, answer.refusal)).or_default() += 1;
        let accepted = answer.refusal == 0;
        self.lengths(calls.slots, lengths);
        let size = lengths.cache.unwrap_or(0) / calls.slots;
        if let Asked::Put(file) = call.asked {
            self.met(Kind::NullFile, file.is_none());
            self.met(Kind::ExactFit, accepted && call.size() == size);
            self.met(Kind::ByteTooLarge, answer == Answer::refused(FULL) && call.size() == size + 1);
            self.met(Kind::PutOfFirst, accepted && call.instance == 0);
            self.met(Kind::PutOfLast, accepted && call.instance == u64::MAX);
        } else if let Asked::Fetch(_) = call.asked {
            self.met(Kind::FetchOfFirst, accepted && call.instance == 0);
            self.met(Kind::FetchOfLast, accepted && call.instance == u64::MAX);
        }
    }

    /// The refusals of a call that was made of one cache: those that are of the cache, and an acceptance, have to be
    /// there. Gives those of files.
    fn answers(&self, cache: usize, call: usize, tally: &mut Tally) -> BTreeSet<Refused> {
        let (answers, slots, (name, numbers)) = (&self.answers[cache][call], CACHES[cache].slots, CALLS[call]);
        let mut counts = BTreeMap::new();
        for ((_, number), count) in answers {
            *counts.entry(number).or_insert(0) += count;
        }
        let line: Vec<String> = counts.iter().map(|(number, count)| format!("{number}: {count}")).collect();
        println!("    {name}, {slots} slots  {}", line.join(", "));
        let of_cache: BTreeSet<Refused> = numbers.iter().map(|number| (STAGE_CALL, *number)).chain([(0, 0)]).collect();
        let (met, others): (BTreeSet<Refused>, _) = answers.keys().partition(|refused| of_cache.contains(refused));
        tally.case(met == of_cache, [0; 3], || format!("{name}, {slots} slots: {met:?}, and not {of_cache:?}"));
        others
    }

    /// The refusals of all calls. Between them the caches have to give each that a file can have.
    fn refusals(&self, tally: &mut Tally) {
        println!("  answers, as number and how often; 0 is an acceptance:");
        for (call, (name, _)) in CALLS.iter().enumerate() {
            let met: BTreeSet<Refused> = (0..CACHES.len()).flat_map(|cache| self.answers(cache, call, tally)).collect();
            let of_file = of_file(call);
            tally.case(met == of_file, [0; 3], || {
                let other: Vec<&Refused> = met.symmetric_difference(&of_file).collect();
                format!("{name}: of files, at a stage, these are missing or were not expected: {other:?}")
            });
        }
    }

    pub fn finish(self) -> Tally {
        let mut tally = Tally::new("every refusal occurs", Against::Demand);
        println!("  calls: {}", self.calls);
        tally.case(self.calls >= LEAST_CALLS, [0; 3], || format!("only {} calls", self.calls));
        self.refusals(&mut tally);
        println!("  calls of a kind, and how often:");
        for (what, count) in KINDS.iter().zip(self.kinds) {
            println!("    {what}: {count}");
            tally.case(count > 0, [0; 3], || format!("there was never {what}"));
        }
        println!("  damage between calls, how often, and how often the next call was refused with 12:");
        for ((what, _), [given, refused]) in WOUNDS.iter().zip(self.wounds) {
            println!("    {what}: {given}, {refused}");
            tally.case(given > 0, [0; 3], || format!("there was never {what}"));
        }
        tally
    }
}
