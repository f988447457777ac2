//! How many varints are read, by their length. Only the package `tallied` has this module.

use std::cell::Cell;

/// How many there are of one byte, of two bytes, and so on.
pub type Lengths = [u64; 10];

thread_local! {
    static READ: Cell<Lengths> = Cell::default();
}

/// Counts a varint of so many bytes.
pub(crate) fn count(length: usize) {
    let mut lengths = READ.get();
    lengths[length - 1] += 1;
    READ.set(lengths);
}

/// What this thread has read since it last asked.
pub fn take() -> Lengths {
    READ.take()
}
