//! What is known without any cache: the file that each instance put last and did not drop. The calls' own answers say
//! what was accepted, and where it is.

use std::collections::BTreeMap;

use boundary::{Answer, ABSENT, NO_SLOT};

use super::calls::{bytes_at, Asked, Call};

/// A slot, and the file that is in it.
type Kept<'f> = (u64, &'f [u8]);

pub struct Ledger<'f> {
    slots: usize,
    size: usize,
    kept: BTreeMap<u64, Kept<'f>>,
}

impl<'f> Ledger<'f> {
    /// Of an empty cache with so many slots of so many bytes.
    pub fn new(slots: usize, size: usize) -> Self {
        Self { slots, size, kept: BTreeMap::new() }
    }

    /// Whether a fetch answered the place of an instance's own constant, and its bytes stand there.
    pub fn own(&self, instance: u64, index: u64, answer: Answer, cache: &[u8]) -> bool {
        let Some(&(slot, file)) = self.kept.get(&instance) else { return answer == Answer::refused(ABSENT) };
        let in_file = boundary::constant(file, index);
        if in_file.refusal != 0 {
            return answer == in_file;
        }
        answer == Answer { first: slot * self.size as u64 + in_file.first, ..in_file }
            && bytes_at(cache, answer) == bytes_at(file, in_file)
    }

    /// Whether there is no slot for an instance.
    pub fn no_slot(&self, instance: u64) -> bool {
        !self.kept.contains_key(&instance) && self.kept.len() == self.slots
    }

    /// Whether a put was refused for want of a slot, or was not, as it ought to be. `None` if the file does not pass,
    /// or does not fit.
    pub fn refused_rightly(&self, instance: u64, file: &[u8], answer: Answer) -> Option<bool> {
        let passes = file.len() <= self.size && boundary::measure(file).refusal == 0;
        let wanted = if self.no_slot(instance) { NO_SLOT } else { 0 };
        passes.then_some(answer.refusal == wanted)
    }

    /// Enters an accepted call.
    pub fn enter(&mut self, Call { instance, asked }: Call<'f>, answer: Answer) {
        match asked {
            Asked::Put(file) if answer.refusal == 0 => {
                self.kept.insert(instance, (answer.first, file.unwrap_or_default()));
            }
            Asked::Drop if answer.refusal == 0 => {
                self.kept.remove(&instance);
            }
            Asked::Put(_) | Asked::Fetch(_) | Asked::Drop => {}
        }
    }

    /// An instance that holds a file.
    pub fn any(&self) -> Option<u64> {
        self.kept.keys().next().copied()
    }
}
