//! The calls of the library on one file against the plain reader: answers, every word and byte of the stores, what
//! stays untouched behind a result and on a refusal, and stores that are too small.

use boundary::{Answer, ABSENT, FULL};
use plain::{Reading, Refusal};

use super::shown;
use crate::tally::{Against, Random, Report, Tally};

const UNTOUCHED: u8 = 0xA5;

/// What was read: the words and the pool.
pub type Tables = (Vec<u64>, Vec<u8>);

/// The tallies of the calls.
pub struct Calls {
    measure: Tally,
    read: Tally,
    small: Tally,
    views: Tally,
    sections: Tally,
    pub rooms: u64,
    pub outside: u64,
}

/// Two lent stores, at any alignment.
pub struct Stores {
    sheet: Vec<u8>,
    pool: Vec<u8>,
    lead: usize,
}

impl Stores {
    pub fn at(lead: usize, sheet: usize, pool: usize) -> Self {
        Self { sheet: vec![UNTOUCHED; lead + sheet], pool: vec![UNTOUCHED; lead + pool], lead }
    }

    pub fn read(&mut self, file: &[u8]) -> Answer {
        boundary::read(file, &mut self.sheet[self.lead..], &mut self.pool[self.lead..])
    }

    pub fn words(&self, count: usize) -> Vec<u64> {
        let words = self.sheet[self.lead..].chunks_exact(8).take(count);
        words.map(|eight| u64::from_le_bytes(eight.try_into().expect("a chunk has eight bytes"))).collect()
    }

    pub fn pool(&self, size: usize) -> &[u8] {
        &self.pool[self.lead..][..size]
    }

    /// Whether nothing changed but so many bytes of the sheet and of the pool.
    pub fn untouched_behind(&self, sheet: usize, pool: usize) -> bool {
        let stayed = |store: &[u8], size: usize| {
            let (before, after) = (&store[..self.lead], &store[self.lead + size..]);
            before.iter().chain(after).all(|&byte| byte == UNTOUCHED)
        };
        stayed(&self.sheet, sheet) && stayed(&self.pool, pool)
    }
}

/// The answer that a reading asks for.
fn wanted(reading: &Result<Reading, Refusal>) -> Answer {
    match reading {
        Ok(reading) => Answer::accepted(reading.words.len() as u64, reading.pool.len() as u64),
        Err(refusal) => Answer::refused_at(refusal.number, refusal.stage),
    }
}

impl Calls {
    pub fn new() -> Self {
        Self {
            measure: Tally::new("measure", Against::Plain),
            read: Tally::new("read", Against::Plain),
            small: Tally::new("read, a store too small", Against::Plain),
            views: Tally::new("string, constant, body", Against::Plain),
            sections: Tally::new("section", Against::Plain),
            rooms: 0,
            outside: 0,
        }
    }

    /// Reads into stores that are a little larger than they have to be. Tables are given if they are the right ones.
    fn read(&mut self, random: &mut Random, file: &[u8], reading: &Result<Reading, Refusal>) -> Option<Tables> {
        let (words, pool) = reading.as_ref().map_or((0, 0), |reading| (reading.words.len(), reading.pool.len()));
        let (more, more_pool) = (random.below(20) as usize, random.below(9) as usize);
        let mut stores = Stores::at(random.below(8) as usize, 8 * words + more, pool + more_pool);
        let answer = stores.read(file);
        let ours = (stores.words(words), stores.pool(pool).to_vec());
        let same = reading.as_ref().map_or(true, |reading| (&reading.words, &reading.pool) == (&ours.0, &ours.1));
        let equal = answer == wanted(reading) && same && stores.untouched_behind(8 * words, pool);
        self.read.case(equal, [file.len() as u64, 0, 0], || {
            format!("{}: {answer:?} and {ours:?}, and the plain reader says {reading:?}", shown(file))
        });
        (equal && reading.is_ok()).then_some(ours)
    }

    /// Stores that are one word or one byte too small stay as they are.
    fn too_small(&mut self, random: &mut Random, file: &[u8], reading: &Reading) {
        let (words, pool) = (8 * reading.words.len(), reading.pool.len());
        let sheet_short = (words - 1 - random.below(8) as usize, pool + random.below(2) as usize);
        let pool_short = pool.checked_sub(1).map(|less| (words + random.below(9) as usize, less));
        for (sheet, pool) in [Some(sheet_short), pool_short].into_iter().flatten() {
            let mut stores = Stores::at(random.below(8) as usize, sheet, pool);
            let answer = stores.read(file);
            let equal = answer == Answer::refused(FULL) && stores.untouched_behind(0, 0);
            self.rooms += u64::from(answer == Answer::refused(FULL));
            self.small.case(equal, [file.len() as u64, sheet as u64, pool as u64], || {
                format!("{} into {sheet} and {pool} bytes: {answer:?}, or a store was touched", shown(file))
            });
        }
    }

    /// A row of each table, or an index that is outside. A row's bytes are those that the pool has for it.
    fn views(&mut self, random: &mut Random, file: &[u8], reading: &Result<Reading, Refusal>) {
        let Ok(reading) = reading else {
            return self.refused_views(random, file, reading);
        };
        let mut in_pool = 0;
        for (view, places) in [
            (boundary::string as fn(&[u8], u64) -> Answer, &reading.strings),
            (boundary::constant, &reading.constants),
            (boundary::body, &reading.bodies),
        ] {
            let count = places.len() as u64;
            let index = if random.one_in(16) { random.number() } else { random.below(count + 1) };
            let answer = view(file, index);
            let equal = match places.get(index as usize) {
                Some(place) => {
                    let start = in_pool + places[..index as usize].iter().map(ExactSizeIterator::len).sum::<usize>();
                    answer == Answer::accepted(place.start as u64, place.len() as u64)
                        && file[place.clone()] == reading.pool[start..start + place.len()]
                }
                None => answer == Answer::refused(ABSENT),
            };
            self.outside += u64::from(answer == Answer::refused(ABSENT));
            self.views.case(equal, [file.len() as u64, index, 0], || {
                format!("row {index} of {}: {answer:?}, and the plain reader says {places:?}", shown(file))
            });
            in_pool += places.iter().map(ExactSizeIterator::len).sum::<usize>();
        }
    }

    /// A view judges the whole file first.
    fn refused_views(&mut self, random: &mut Random, file: &[u8], reading: &Result<Reading, Refusal>) {
        let views = [boundary::string, boundary::constant, boundary::body];
        let answer = views[random.below(3) as usize](file, random.below(3));
        self.views.case(answer == wanted(reading), [file.len() as u64, 0, 0], || {
            format!("a row of {}: {answer:?}, and the plain reader says {reading:?}", shown(file))
        });
    }

    /// The payload that counts for an id. Header and walk are judged, and no payload.
    fn section(&mut self, random: &mut Random, file: &[u8]) {
        let id = random.below(10);
        let wanted = match plain::sections(file) {
            Ok((_, sections)) => match sections.get(id as usize) {
                Some(Some(place)) => Answer::accepted(place.start as u64, place.len() as u64),
                _ => Answer::refused(ABSENT),
            },
            Err(refusal) => Answer::refused_at(refusal.number, refusal.stage),
        };
        let answer = boundary::section(file, id);
        self.sections.case(answer == wanted, [file.len() as u64, id, 0], || {
            format!("section {id} of {}: {answer:?}, and the plain reader says {wanted:?}", shown(file))
        });
    }

    /// All calls on one file. Gives the tables that the library read, if they are those of the plain reader.
    pub fn compare(&mut self, random: &mut Random, file: &[u8], reading: &Result<Reading, Refusal>) -> Option<Tables> {
        let answer = boundary::measure(file);
        self.measure.case(answer == wanted(reading), [file.len() as u64, 0, 0], || {
            format!("{}: {answer:?}, and the plain reader says {reading:?}", shown(file))
        });
        if random.one_in(2) {
            self.views(random, file, reading);
            self.section(random, file);
        }
        if let (Ok(reading), true) = (reading, random.one_in(2)) {
            self.too_small(random, file, reading);
        }
        self.read(random, file, reading)
    }

    pub fn finish(self, report: &mut Report) {
        [self.measure, self.read, self.small, self.views, self.sections]
            .into_iter()
            .for_each(|tally| report.add(tally));
    }
}
