//! One call of an instance, made of the library and of the plain cache.

use std::fmt::{self, Display};

use boundary::{Answer, Cache};
use plain::{cache, Refusal};

use super::lent::{Lengths, Lent};
use crate::files::shown;

#[derive(Clone, Copy)]
pub enum Asked<'f> {
    /// The file; `None` is a null pointer.
    Put(Option<&'f [u8]>),
    Fetch(u64),
    Drop,
}

#[derive(Clone, Copy)]
pub struct Call<'f> {
    pub instance: u64,
    pub asked: Asked<'f>,
}

fn slot(result: Result<u64, Refusal>) -> Answer {
    result.map_or_else(refused, |slot| Answer::accepted(slot, 0))
}

fn refused(refusal: Refusal) -> Answer {
    Answer::refused_at(refusal.number, refusal.stage)
}

/// The bytes of a place that a call answered, if it is inside.
pub fn bytes_at(memory: &[u8], place: Answer) -> Option<&[u8]> {
    memory.get(place.first as usize..)?.get(..place.second as usize)
}

impl Call<'_> {
    pub fn of_library(&self, calls: Cache, Lent { cache, owners }: &mut Lent, lengths: Lengths) -> Answer {
        let cache = lengths.cache.map(|count| cache.first(count));
        let owners = lengths.owners.map(|count| owners.first(count));
        match self.asked {
            Asked::Put(file) => calls.put(cache, owners, self.instance, file),
            Asked::Fetch(index) => calls.fetch(cache.as_deref(), owners.as_deref(), self.instance, index),
            Asked::Drop => calls.drop(cache, owners, self.instance),
        }
    }

    pub fn of_plain(&self, slots: usize, lent: &mut Lent, lengths: Lengths) -> Answer {
        let bytes = lent.cache.first(lengths.cache.unwrap_or(0));
        let owners = lent.owners.first(lengths.owners.unwrap_or(0));
        match self.asked {
            Asked::Put(file) => slot(cache::put(slots, bytes, owners, self.instance, file.unwrap_or_default())),
            Asked::Fetch(index) => cache::fetch(slots, bytes, owners, self.instance, index)
                .map_or_else(refused, |place| Answer::accepted(place.start as u64, place.len() as u64)),
            Asked::Drop => slot(cache::drop(slots, bytes, owners, self.instance)),
        }
    }

    /// How many bytes it comes with.
    pub fn size(&self) -> usize {
        match self.asked {
            Asked::Put(file) => file.map_or(0, <[u8]>::len),
            Asked::Fetch(_) | Asked::Drop => 0,
        }
    }
}

impl Display for Call<'_> {
    fn fmt(&self, out: &mut fmt::Formatter) -> fmt::Result {
        match self.asked {
            Asked::Put(None) => write!(out, "put of a null pointer")?,
            Asked::Put(Some(file)) => write!(out, "put of {}", shown(file))?,
            Asked::Fetch(index) => write!(out, "fetch of {index}")?,
            Asked::Drop => write!(out, "drop")?,
        }
        write!(out, " by {}", self.instance)
    }
}
