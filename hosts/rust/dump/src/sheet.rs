//! The tables of a sheet, by its table of contents.

/// The sheet and the pool of a file that was read.
pub struct Sheet<'a> {
    words: &'a [u64],
    pool: &'a [u8],
}

const STRINGS: usize = 0;
const TYPES: usize = 1;
const CONSTANTS: usize = 2;
const GLOBALS: usize = 3;
const FUNCTIONS: usize = 4;
const ATTRIBUTES: usize = 5;
const LISTS: usize = 6;

impl<'a> Sheet<'a> {
    pub fn new(words: &'a [u64], pool: &'a [u8]) -> Self {
        Self { words, pool }
    }

    /// The words from a table's first row on, and how many rows there are.
    fn table(&self, table: usize) -> (&'a [u64], usize) {
        let (start, rows) = (self.words[5 + 2 * table], self.words[6 + 2 * table]);
        (&self.words[start as usize..], rows as usize)
    }

    /// The rows of a table in which each has `WIDTH` words.
    fn rows<const WIDTH: usize>(&self, table: usize) -> Vec<[u64; WIDTH]> {
        let (words, rows) = self.table(table);
        let whole = |row: &[u64]| row.try_into().expect("a chunk has the width of a row");
        words[..rows * WIDTH].chunks_exact(WIDTH).map(whole).collect()
    }

    /// The rows of a table in which each says first how many words follow.
    fn counted(&self, table: usize) -> Vec<&'a [u64]> {
        let (mut words, rows) = self.table(table);
        let mut next = || {
            let (row, rest) = words[1..].split_at(words[0] as usize);
            words = rest;
            row
        };
        (0..rows).map(|_| next()).collect()
    }

    /// Whether the version is this one or a later one.
    pub fn since(&self, major: u64, minor: u64) -> bool {
        (self.words[0], self.words[1]) >= (major, minor)
    }

    /// The version, as decoder.rs shows it.
    pub fn version(&self) -> String {
        match self.words[..3] {
            [major, minor, 0] => format!("{major}.{minor}"),
            [major, minor, tag] => format!("{major}.{minor}.{tag}"),
            _ => unreachable!("three words were taken"),
        }
    }

    pub fn producer(&self) -> Option<usize> {
        self.words[3].checked_sub(1).map(|index| index as usize)
    }

    /// The strings, as decoder.rs shows them: one that is no UTF-8 by a text of its own.
    pub fn strings(&self) -> Vec<String> {
        let mut pool = self.pool;
        let mut next = |size: u64| {
            let (bytes, rest) = pool.split_at(size as usize);
            pool = rest;
            std::str::from_utf8(bytes).unwrap_or("<invalid utf8>").to_owned()
        };
        self.rows(STRINGS).iter().map(|&[size]| next(size)).collect()
    }

    /// The types, each as its tag and its fields.
    pub fn types(&self) -> Vec<&'a [u64]> {
        self.counted(TYPES)
    }

    /// The lengths of the constants.
    pub fn constants(&self) -> Vec<u64> {
        self.rows(CONSTANTS).iter().map(|&[size]| size).collect()
    }

    pub fn globals(&self) -> Vec<[u64; 6]> {
        self.rows(GLOBALS)
    }

    pub fn functions(&self) -> Vec<[u64; 5]> {
        self.rows(FUNCTIONS)
    }

    pub fn attributes(&self) -> Vec<[u64; 7]> {
        self.rows(ATTRIBUTES)
    }

    pub fn lists(&self) -> Vec<&'a [u64]> {
        self.counted(LISTS)
    }
}
