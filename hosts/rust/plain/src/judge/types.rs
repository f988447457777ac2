//! The rows of types: each has the fields of its tag, and no word more.

use super::words::{require, Words};
use crate::container::Version;
use crate::fields::{fields, Field};
use crate::refusal::{stop, Stop, SHEET};

/// A row behind its count.
pub fn row(row: &[u64], version: Version) -> Result<(), Stop> {
    let mut words = Words(row);
    let mut flags = 0;
    for field in fields(words.one()?, version).ok_or(stop(SHEET))? {
        match field {
            Field::Flags => flags = words.one()?,
            Field::NoFlags => require(words.one()? == 0)?,
            Field::LateFlags => flags = words.fitting(1)?,
            Field::Presence => {}
            Field::Index => {
                words.one()?;
            }
            Field::Numbers(width) => words.list(8 * u32::from(*width))?,
            Field::Indices => words.list(64)?,
            Field::LastByte => words.last(flags, 8)?,
            Field::LastVarint => words.last(flags, 64)?,
        }
    }
    words.end()
}
