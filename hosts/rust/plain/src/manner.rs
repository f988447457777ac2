//! Two manners of reading: document 01's, and decoder.rs's where docs/DIFFERENCES.md says that it parts from it.

use crate::refusal::{Detail, Stop, SHORT};

pub trait Manner {
    /// Comes upon what document 01 refuses and decoder.rs reads over.
    fn over(&mut self, stop: Stop) -> Result<(), Stop>;

    /// Is about to read `count` items, for each of which decoder.rs reserves `size` bytes.
    fn reserve(&mut self, count: u64, size: u64) -> Result<(), Stop>;
}

/// Document 01's manner: all is refused, and nothing is reserved.
pub struct Strict;

impl Manner for Strict {
    fn over(&mut self, stop: Stop) -> Result<(), Stop> {
        Err(stop)
    }

    fn reserve(&mut self, _count: u64, _size: u64) -> Result<(), Stop> {
        Ok(())
    }
}

/// decoder.rs's manner, in so much memory. It remembers what it read over.
pub struct Lenient {
    pub memory: u64,
    pub over: Vec<Stop>,
}

impl Manner for Lenient {
    fn over(&mut self, stop: Stop) -> Result<(), Stop> {
        if self.over.last() != Some(&stop) {
            self.over.push(stop);
        }
        Ok(())
    }

    fn reserve(&mut self, count: u64, size: u64) -> Result<(), Stop> {
        match count.checked_mul(size).filter(|&bytes| bytes <= isize::MAX as u64) {
            Some(bytes) if bytes <= self.memory => Ok(()),
            Some(_) => Err(Stop { number: SHORT, detail: Detail::Memory }),
            None => Err(Stop { number: SHORT, detail: Detail::Capacity }),
        }
    }
}
