//! The comparison of histories, call by call.

use boundary::Answer;
use plain::cache::stands_for;

use super::apart::{self, Said};
use super::calls::{Asked, Call};
use super::counts::{number, which, Counts, Kind, CACHES};
use super::damage::{hurt, other_lengths};
use super::history::History;
use super::ledger::Ledger;
use super::lent::Lengths;
use super::sides::Sides;
use crate::files::{one_section, shown};
use crate::tally::{Against, Random, Report, Tally};

const MOST_BYTES: usize = 1 << 30;
/// Where a host does damage, it does so before one call in so many, and lends other lengths to one in so many.
const WOUNDED: u64 = 4;
const OTHER_LENGTHS: u64 = 8;

pub struct Run {
    /// Of put, fetch and drop, with 16 slots and with 64.
    calls: [[Tally; 3]; 2],
    others: Tally,
    own: Tally,
    no_slot: Tally,
    apart: Tally,
    counts: Counts,
}

impl Run {
    pub fn new() -> Self {
        let names = [
            ["put, 16 slots", "fetch, 16 slots", "drop, 16 slots"],
            ["put, 64 slots", "fetch, 64 slots", "drop, 64 slots"],
        ];
        Self {
            calls: names.map(|names| names.map(|name| Tally::new(name, Against::Plain))),
            others: Tally::new("other slots and rows stay", Against::Known),
            own: Tally::new("a fetch is of its own", Against::Known),
            no_slot: Tally::new("no slot, exactly then", Against::Known),
            apart: Tally::new("only no slot is of others", Against::Known),
            counts: Counts::new(),
        }
    }

    /// Makes a call of both sides.
    fn call(&mut self, sides: &mut Sides, call: &Call, lengths: Lengths) -> Answer {
        let Sides { calls, .. } = *sides;
        let size = [lengths.cache.unwrap_or(0) as u64, call.size() as u64, 0];
        let rows = sides.plain.owners.clone();
        let described = || format!("{call}, {lengths:?} of {} slots, rows {}", calls.slots, shown(rows.whole()));
        let answer = call.of_library(calls, &mut sides.ours, lengths);
        self.counts.call(calls, call, lengths, answer);
        let stay = sides.others_stay(call, lengths, answer);
        self.others.case(stay, size, || format!("{}: {answer:?}, and something else changed", described()));
        let wanted = call.of_plain(calls.slots, &mut sides.plain, lengths);
        let same = sides.ours == sides.plain;
        let tally = &mut self.calls[which(calls)][number(call.asked)];
        tally.case(answer == wanted && same, size, || {
            let memory = if same { "the same" } else { "other" };
            format!("{}: {answer:?}, and the plain cache says {wanted:?} and leaves {memory} memory", described())
        });
        if !same {
            sides.plain = sides.ours.clone();
        }
        answer
    }

    /// What the ledger says of a call that was answered, before it is entered.
    fn claims(&mut self, ledger: &Ledger, call: &Call, answer: Answer, sides: &Sides) {
        let size = [sides.ours.cache.size() as u64, call.size() as u64, 0];
        match call.asked {
            Asked::Fetch(index) => {
                let own = ledger.own(call.instance, index, answer, sides.ours.cache.whole());
                self.own.case(own, size, || format!("{call}: {answer:?} is not of what it put"));
            }
            Asked::Put(file) => {
                if let Some(rightly) = ledger.refused_rightly(call.instance, file.unwrap_or_default(), answer) {
                    self.no_slot.case(rightly, size, || format!("{call}: {answer:?}"));
                }
            }
            Asked::Drop => {}
        }
    }

    /// A history from an empty cache, in which nothing but calls changes memory.
    pub fn undamaged(&mut self, random: &mut Random, history: &History) {
        let mut sides = Sides::empty(random, history.calls, history.size);
        let mut ledger = Ledger::new(history.calls.slots, history.size);
        let mut told = Vec::new();
        for call in history.all_calls(random) {
            let lengths = sides.ours.lengths();
            let answer = self.call(&mut sides, &call, lengths);
            self.claims(&ledger, &call, answer, &sides);
            ledger.enter(call, answer);
            told.push((call, Said::of(&call, answer, history.size, sides.ours.cache.whole())));
        }
        let scarce = apart::compare(random, history, &told, &mut self.apart);
        self.counts.kind(Kind::Scarce, scarce);
    }

    /// A history in which a host damages the cache between calls, or lends other lengths of it. A table that stands for
    /// nothing is put right again after a few calls.
    pub fn damaged(&mut self, random: &mut Random, history: &History) {
        let mut sides = Sides::empty(random, history.calls, history.size);
        let mut right = sides.ours.owners.clone();
        for mut call in history.all_calls(random) {
            let wound = if random.one_in(WOUNDED) { hurt(random, history, &mut sides.ours) } else { None };
            if let Some((_, instance)) = wound {
                sides.plain = sides.ours.clone();
                call = if random.one_in(4) { call } else { history.call_after(random, instance) };
            }
            let whole = sides.ours.lengths();
            let other = random.one_in(OTHER_LENGTHS);
            let lengths = if other { other_lengths(random, history.calls.slots, whole) } else { whole };
            let answer = self.call(&mut sides, &call, lengths);
            if let Some((wound, _)) = wound {
                self.counts.wound(wound, answer);
            }
            let Sides { ours, plain, .. } = &mut sides;
            if stands_for(history.calls.slots, ours.cache.whole(), ours.owners.whole()).is_ok() {
                right = ours.owners.clone();
            } else if random.one_in(3) {
                (ours.owners, plain.owners) = (right.clone(), right.clone());
            }
        }
    }

    /// Files at the limit and over it. Memory that is never written stays unmapped, so they cost little.
    pub fn limit(&mut self, random: &mut Random) {
        let case = one_section(4, &[0]);
        let mut file = vec![0; MOST_BYTES + 1];
        file[..case.len()].copy_from_slice(&case);
        for calls in CACHES {
            let mut sides = Sides::empty(random, calls, case.len());
            for size in [MOST_BYTES + 1, MOST_BYTES, case.len()] {
                let lengths = sides.ours.lengths();
                self.call(&mut sides, &Call { instance: 1, asked: Asked::Put(Some(&file[..size])) }, lengths);
            }
        }
    }

    /// Prints the tallies. Gives what this run came upon.
    pub fn finish(self, report: &mut Report) -> Counts {
        let claims = [self.others, self.own, self.no_slot, self.apart];
        self.calls.into_iter().flatten().chain(claims).for_each(|tally| report.add(tally));
        self.counts
    }
}
