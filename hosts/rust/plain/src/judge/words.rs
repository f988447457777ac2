//! Words of a handed sheet, taken one after the other.

use crate::refusal::{stop, Stop, SHEET};

/// A clause of "well-formed".
pub fn require(holds: bool) -> Result<(), Stop> {
    if holds {
        Ok(())
    } else {
        Err(stop(SHEET))
    }
}

/// The words of a sheet that is lent as bytes, if they are whole words.
pub fn whole_words(sheet: &[u8]) -> Result<Vec<u64>, Stop> {
    let chunks = sheet.chunks_exact(8);
    require(chunks.remainder().is_empty())?;
    Ok(chunks.map(|eight| u64::from_le_bytes(eight.try_into().expect("a chunk has eight bytes"))).collect())
}

/// The words that are left.
pub struct Words<'a>(pub &'a [u64]);

impl<'a> Words<'a> {
    pub fn take(&mut self, count: u64) -> Result<&'a [u64], Stop> {
        require(count <= self.0.len() as u64)?;
        let (taken, left) = self.0.split_at(count as usize);
        self.0 = left;
        Ok(taken)
    }

    pub fn one(&mut self) -> Result<u64, Stop> {
        Ok(self.take(1)?[0])
    }

    /// A word that fits so many bits on the wire.
    pub fn fitting(&mut self, bits: u32) -> Result<u64, Stop> {
        let word = self.one()?;
        require(bits == 64 || word >> bits == 0)?;
        Ok(word)
    }

    /// A count and as many numbers.
    pub fn list(&mut self, bits: u32) -> Result<(), Stop> {
        let count = self.one()?;
        let mut list = Words(self.take(count)?);
        for _ in 0..count {
            list.fitting(bits)?;
        }
        Ok(())
    }

    /// A last field of so many bits, which is 0 unless bit 0 of the flags is set.
    pub fn last(&mut self, flags: u64, bits: u32) -> Result<(), Stop> {
        let word = self.fitting(bits)?;
        require(flags & 1 != 0 || word == 0)
    }

    pub fn end(&self) -> Result<(), Stop> {
        require(self.0.is_empty())
    }
}
