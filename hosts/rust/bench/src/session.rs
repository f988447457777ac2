//! A session load: files of the genuine writer, one after the other, each measured and then read, beside
//! decode_bytecode and the plain reader.

use std::path::Path;
use std::{fs, io};

use oracle::bytecode::decoder::decode_bytecode;
use tallied::tally::{self, Lengths};

use crate::files::{plain_sizes, PLAIN, RUST};
use crate::stores::Stores;
use crate::timing::{row, Row};

const WHAT: &str = "a file of the session load measured and read";
/// At most so much of decode_bytecode's time, and of the plain reader's.
const GOALS: (f64, f64) = (0.12, 0.55);
const FILES: usize = 60;

/// The files of a session.
pub struct Load(Vec<Vec<u8>>);

/// A number with its digits in threes.
fn grouped(number: u64) -> String {
    if number < 1000 {
        return number.to_string();
    }
    format!("{},{:03}", grouped(number / 1000), number % 1000)
}

impl Load {
    /// The first files in a folder of the writer, by their names. It lists those with hints, which are refused.
    pub fn of(folder: &Path) -> io::Result<Self> {
        let with_hints = fs::read_to_string(folder.join("hints.txt"))?;
        let name = |entry: io::Result<fs::DirEntry>| Ok(entry?.file_name().to_string_lossy().into_owned());
        let mut names = fs::read_dir(folder)?.map(name).collect::<io::Result<Vec<String>>>()?;
        names.retain(|name| name.ends_with(".tileirbc") && with_hints.lines().all(|line| line != name));
        names.sort();
        assert!(names.len() >= FILES, "the writer made more files");
        names[..FILES].iter().map(|name| fs::read(folder.join(name))).collect::<io::Result<_>>().map(Self)
    }

    /// All varints that a reader reads in the files.
    fn varints(&self) -> Lengths {
        tally::take();
        self.0.iter().for_each(|file| assert!(tallied::read(file).is_ok(), "a file of the session load is refused"));
        tally::take()
    }

    /// How many bytes the files have, and of what lengths their varints are.
    pub fn about(&self) -> String {
        let bytes = self.0.iter().map(Vec::len).sum::<usize>() as u64;
        let lengths = self.varints();
        let all = lengths.iter().sum::<u64>();
        let share = |count: u64| format!("{} ({:.1}%)", grouped(count), 100.0 * count as f64 / all as f64);
        let (one, two, more) = (share(lengths[0]), share(lengths[1]), share(lengths[2..].iter().sum()));
        format!(
            "The session load: {FILES} files of the genuine writer, {} bytes; of their {} varints {one} are one byte, \
             {two} two and {more} more.",
            grouped(bytes),
            grouped(all),
        )
    }

    /// All sides accept the files, and ours and the plain reader read the same, before it counts how fast that was.
    fn check(&self, stores: &mut Stores) {
        for file in &self.0 {
            let (words, bytes) = stores.measure_and_read(file);
            let plain::Reading { words: plain_words, pool, .. } = plain::read(file).expect("the plain reader accepts");
            let sheet: Vec<u8> = plain_words.into_iter().flat_map(u64::to_le_bytes).collect();
            assert!(stores.sheet[..8 * words] == sheet && stores.pool[..bytes] == pool, "the tables are others");
            assert!(decode_bytecode(file).is_ok(), "decode_bytecode refuses");
        }
    }

    pub fn rows(&self) -> Vec<Row> {
        let mut stores = Stores::for_each(&self.0);
        self.check(&mut stores);
        let sizes = |(words, bytes): (usize, usize)| words + bytes;
        let beside_rust = row(
            (WHAT, RUST),
            Some(GOALS.0),
            FILES,
            || self.0.iter().filter(|file| stores.measure_and_read(file).0 > 0).count(),
            || self.0.iter().filter(|file| decode_bytecode(file).is_ok()).count(),
        );
        let beside_plain = row(
            (WHAT, PLAIN),
            Some(GOALS.1),
            FILES,
            || self.0.iter().map(|file| sizes(stores.measure_and_read(file))).sum::<usize>(),
            || self.0.iter().map(|file| sizes(plain_sizes(file))).sum::<usize>(),
        );
        vec![beside_rust, beside_plain]
    }
}
