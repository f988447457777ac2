//! Judges a handed sheet by document 01's "Well-formed", clause by clause.

mod types;
mod words;

use crate::container::Version;
use crate::debug::FIELDS;
use crate::refusal::{stop, Stop, SHEET};
use crate::rows::HAS_OPTIMIZATION_HINTS;
use crate::sheet::CONTENTS_END;
pub use words::whole_words;
use words::{require, Words};

/// The rows of a table, one by one. Of types and lists they are what stands behind the count.
pub type Rows<'a> = Vec<&'a [u64]>;

/// What a well-formed sheet says. The pool is as long as the rows say together.
pub struct Judged<'a> {
    pub version: Version,
    pub producer: Option<u64>,
    pub pool: u64,
    pub strings: Rows<'a>,
    pub types: Rows<'a>,
    pub constants: Rows<'a>,
    pub globals: Rows<'a>,
    pub functions: Rows<'a>,
    pub attributes: Rows<'a>,
    pub lists: Rows<'a>,
}

fn version(words: &mut Words) -> Result<Version, Stop> {
    Ok(Version { major: words.fitting(8)? as u8, minor: words.fitting(8)? as u8, tag: words.fitting(16)? as u16 })
}

/// The rows of the tables, which are to be taken in the order of the contents.
struct Tables<'a> {
    contents: Words<'a>,
    rows: Words<'a>,
    start: u64,
}

impl<'a> Tables<'a> {
    /// The next table: it starts where the one before ends. `row` takes a row.
    fn next(&mut self, mut row: impl FnMut(&mut Words<'a>) -> Result<&'a [u64], Stop>) -> Result<Rows<'a>, Stop> {
        require(self.contents.one()? == self.start)?;
        let left = self.rows.0.len();
        let mut rows = Vec::new();
        for _ in 0..self.contents.one()? {
            rows.push(row(&mut self.rows)?);
        }
        self.start += (left - self.rows.0.len()) as u64;
        Ok(rows)
    }
}

/// A row that says first how many words follow.
fn counted<'a>(words: &mut Words<'a>) -> Result<&'a [u64], Stop> {
    let count = words.one()?;
    words.take(count)
}

/// From 13.3 on a visibility and a constant flag; before, both are 0.
fn global<'a>(words: &mut Words<'a>, version: Version) -> Result<&'a [u64], Stop> {
    let row = words.take(6)?;
    let since = version.since(13, 3);
    require(row[4] < if since { 256 } else { 1 })?;
    require(row[5] < if since { 2 } else { 1 })?;
    Ok(row)
}

fn function<'a>(words: &mut Words<'a>) -> Result<&'a [u64], Stop> {
    let row = words.take(5)?;
    require(row[2] < 256 && row[2] & u64::from(HAS_OPTIMIZATION_HINTS) == 0)?;
    Ok(row)
}

fn attribute<'a>(words: &mut Words<'a>) -> Result<&'a [u64], Stop> {
    let row = words.take(7)?;
    let fields = usize::try_from(row[0]).ok().and_then(|tag| FIELDS.get(tag)).ok_or(stop(SHEET))?;
    require(row[1 + fields..].iter().all(|&absent| absent == 0))?;
    Ok(row)
}

/// The sum of the row lengths, if a word holds it.
fn pool_length(strings: &Rows, constants: &Rows, functions: &Rows) -> Option<u64> {
    let mut lengths = strings.iter().chain(constants).map(|row| row[0]).chain(functions.iter().map(|row| row[4]));
    lengths.try_fold(0u64, u64::checked_add)
}

/// Judges the words of a sheet that is lent without its pool: word 4 is compared with the row sum only.
pub fn judge(sheet: &[u64]) -> Result<Judged<'_>, Stop> {
    let mut words = Words(sheet);
    let version = version(&mut words)?;
    let producer = words.one()?.checked_sub(1);
    let pool = words.one()?;
    let contents = Words(words.take(14)?);
    let mut tables = Tables { contents, rows: words, start: CONTENTS_END };
    let strings = tables.next(|words| words.take(1))?;
    let types = tables.next(|words| {
        let row = counted(words)?;
        types::row(row, version)?;
        Ok(row)
    })?;
    let constants = tables.next(|words| words.take(1))?;
    let globals = tables.next(|words| global(words, version))?;
    let functions = tables.next(function)?;
    let attributes = tables.next(attribute)?;
    let lists = tables.next(counted)?;
    tables.rows.end()?;
    require(producer.is_none_or(|index| index < strings.len() as u64))?;
    require(pool_length(&strings, &constants, &functions) == Some(pool))?;
    Ok(Judged { version, producer, pool, strings, types, constants, globals, functions, attributes, lists })
}
