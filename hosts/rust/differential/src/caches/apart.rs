//! The calls of an instance once more, in another cache and between other calls of the others. Only "no slot" depends
//! on those: where it is given at the same places, all answers are the same, slot places apart.

use boundary::{Answer, NO_SLOT};

use super::calls::{bytes_at, Asked, Call};
use super::history::{any, History};
use super::ledger::Ledger;
use super::lent::Lent;
use crate::tally::{Random, Tally};

/// An answer without the place of its slot, and the bytes that were fetched.
#[derive(Debug, PartialEq)]
pub struct Said {
    answer: Answer,
    bytes: Vec<u8>,
}

impl Said {
    pub fn of(call: &Call, answer: Answer, size: usize, cache: &[u8]) -> Self {
        if answer.refusal != 0 || !matches!(call.asked, Asked::Fetch(_)) {
            return Self { answer: Answer { first: 0, ..answer }, bytes: Vec::new() };
        }
        let inside = Answer { first: answer.first % size.max(1) as u64, ..answer };
        Self { answer: inside, bytes: bytes_at(cache, answer).unwrap_or_default().to_vec() }
    }
}

/// The other cache.
struct Other<'h, 'f> {
    history: &'h History<'f>,
    lent: Lent,
    ledger: Ledger<'f>,
}

impl<'f> Other<'_, 'f> {
    fn call(&mut self, call: Call<'f>) -> Said {
        let lengths = self.lent.lengths();
        let answer = call.of_library(self.history.calls, &mut self.lent, lengths);
        self.ledger.enter(call, answer);
        Said::of(&call, answer, self.history.size, self.lent.cache.whole())
    }

    /// Up to three calls of others.
    fn others(&mut self, random: &mut Random, instance: u64) {
        for _ in 0..random.below(4) {
            let other = self.history.instance(random);
            if other != instance {
                self.call(self.history.call_of(random, other));
            }
        }
    }

    /// Others take all slots if there was none for a put, and one of them drops its file if there was one.
    fn as_scarce(&mut self, Call { instance, asked }: Call<'f>, said: &Said) {
        if !matches!(asked, Asked::Put(_)) {
            return;
        }
        if said.answer.refusal == NO_SLOT {
            for other in 1..=self.history.calls.slots as u64 {
                self.call(Call { instance: instance.wrapping_add(other), asked });
            }
        } else if self.ledger.no_slot(instance) {
            let other = self.ledger.any().expect("all slots are taken");
            self.call(Call { instance: other, asked: Asked::Drop });
        }
    }
}

/// What an instance is told in the other cache is what it was told in a history. Gives how often there was no slot.
fn again(random: &mut Random, history: &History, told: &[(Call, Said)], instance: u64, tally: &mut Tally) -> u64 {
    let History { calls, size, .. } = *history;
    let lent = Lent::empty(random, calls.slots, size);
    let mut other = Other { history, lent, ledger: Ledger::new(calls.slots, size) };
    let mut scarce = 0;
    for (call, said) in told.iter().filter(|(call, _)| call.instance == instance) {
        other.others(random, instance);
        other.as_scarce(*call, said);
        let now = other.call(*call);
        scarce += u64::from(now.answer.refusal == NO_SLOT);
        tally.case(now == *said, [(calls.slots * size) as u64, call.size() as u64, 0], || {
            format!("{call}, {} slots of {size} bytes: {said:?}, and between other calls {now:?}", calls.slots)
        });
    }
    scarce
}

/// Three instances of a history, 0 and 2^64 - 1 among them. Gives how often there was no slot for them.
pub fn compare(random: &mut Random, history: &History, told: &[(Call, Said)], tally: &mut Tally) -> u64 {
    let instances = [0, u64::MAX, *any(random, &history.instances)];
    instances.into_iter().map(|instance| again(random, history, told, instance, tally)).sum()
}
