//! The library and the plain cache side by side.

use boundary::{Answer, Cache, OWNER_BYTES};

use super::calls::{Asked, Call};
use super::lent::{Lengths, Lent};
use crate::tally::Random;

/// A cache as the library leaves it, and as the plain cache does.
pub struct Sides {
    pub calls: Cache,
    pub ours: Lent,
    pub plain: Lent,
}

impl Sides {
    pub fn empty(random: &mut Random, calls: Cache, size: usize) -> Self {
        let ours = Lent::empty(random, calls.slots, size);
        Self { calls, plain: ours.clone(), ours }
    }

    /// Whether the call that was made of the library alone left all but its own slot and row, and a drop nothing there.
    pub fn others_stay(&self, call: &Call, lengths: Lengths, answer: Answer) -> bool {
        let changes = answer.refusal == 0 && !matches!(call.asked, Asked::Fetch(_));
        if !changes {
            return self.ours == self.plain;
        }
        let (slot, size) = (answer.first as usize, lengths.cache.unwrap_or(0) / self.calls.slots);
        if slot >= self.calls.slots {
            return false;
        }
        let (bytes, row) = (slot * size..(slot + 1) * size, slot * OWNER_BYTES..(slot + 1) * OWNER_BYTES);
        let Lent { cache, owners } = &self.ours;
        let stay = cache.same_but(&self.plain.cache, bytes.clone()) && owners.same_but(&self.plain.owners, row.clone());
        stay && (!matches!(call.asked, Asked::Drop) || cache.cleared(bytes) && owners.cleared(row))
    }
}
