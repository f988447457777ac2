//! A sheet and a pool as they are handed to the library.

use crate::files::{shown, Made};

/// How many words a row has, by its table. Types and lists say it first.
const WIDTHS: [Option<usize>; 7] = [Some(1), None, Some(1), Some(6), Some(5), Some(7), None];

pub const STRINGS: usize = 0;
pub const TYPES: usize = 1;
pub const CONSTANTS: usize = 2;
pub const GLOBALS: usize = 3;
pub const FUNCTIONS: usize = 4;
pub const ATTRIBUTES: usize = 5;

/// Words, bytes behind them that are no word, and the pool.
#[derive(Clone, Debug, Default)]
pub struct Handed {
    pub words: Vec<u64>,
    pub odd: Vec<u8>,
    pub pool: Vec<u8>,
}

impl Handed {
    pub fn of(made: Made) -> Self {
        Self { words: made.words, odd: Vec::new(), pool: made.pool }
    }

    /// A sheet of strings and constants alone. Its pool is not made: the lengths may be any.
    pub fn of_lengths(strings: &[u64], constants: &[u64]) -> Self {
        let lengths = [strings, constants].concat();
        let pool = lengths.iter().fold(0u64, |sum, &length| sum.wrapping_add(length));
        let (first, second) = (19 + strings.len() as u64, 19 + lengths.len() as u64);
        let mut words = vec![13, 1, 0, 0, pool, 19, strings.len() as u64, first, 0, first, constants.len() as u64];
        words.extend([second, 0, second, 0, second, 0, second, 0]);
        words.extend(lengths);
        Self { words, ..Self::default() }
    }

    /// The sheet as it is lent.
    pub fn sheet(&self) -> Vec<u8> {
        let mut bytes: Vec<u8> = self.words.iter().flat_map(|word| word.to_le_bytes()).collect();
        bytes.extend_from_slice(&self.odd);
        bytes
    }

    /// Where the rows of a table begin, in a sheet that is well-formed.
    pub fn rows(&self, table: usize) -> Vec<usize> {
        let mut at = self.words[5 + 2 * table] as usize;
        let mut next = || {
            let row = at;
            at += WIDTHS[table].unwrap_or_else(|| 1 + self.words[row] as usize);
            row
        };
        (0..self.words[6 + 2 * table]).map(|_| next()).collect()
    }

    /// The words that are lengths of rows of the pool.
    pub fn lengths(&self) -> Vec<usize> {
        let bodies = self.rows(FUNCTIONS).into_iter().map(|row| row + 4);
        self.rows(STRINGS).into_iter().chain(self.rows(CONSTANTS)).chain(bodies).collect()
    }

    pub fn described(&self) -> String {
        let words: Vec<String> = self.words.iter().take(128).map(u64::to_string).collect();
        format!("[{}] and {} bytes, with the pool {}", words.join(","), self.odd.len(), shown(&self.pool))
    }
}
