//! `image` and `write` on one sheet: answers, every byte of the output, what stays untouched behind a result and on a
//! refusal, outputs that are too small; and what was written, read again by the library and by decoder.rs.

use boundary::{Answer, FULL};
use plain::Refusal;

use super::counts::Counts;
use super::handed::Handed;
use crate::files::{shown, Compared, Coverage, Stores, Texts};
use crate::tally::{Against, Random, Report, Tally};

const UNTOUCHED: u8 = 0xA5;
/// Bytes behind the output that are not lent.
const BEHIND: usize = 8;
/// Of shorter files one in `EVERY_ROOM` is written into outputs of every size.
const SHORT_FILE: usize = 200;
const EVERY_ROOM: u64 = 200;

/// What a call is asked to answer, and the bytes that it is asked to write.
fn wanted(written: &Result<Vec<u8>, Refusal>, room: usize) -> (Answer, &[u8]) {
    match written {
        Ok(file) if file.len() > room => (Answer::refused(FULL), &[]),
        Ok(file) => (Answer::accepted(file.len() as u64, 0), file),
        Err(refusal) => (Answer::refused_at(refusal.number, refusal.stage), &[]),
    }
}

/// Writes into an output of any alignment. Gives the answer, the first bytes of the output, and whether all others
/// stayed.
fn write(random: &mut Random, sheet: &[u8], pool: &[u8], room: usize, own: usize) -> (Answer, Vec<u8>, bool) {
    let lead = random.below(8) as usize;
    let mut memory = vec![UNTOUCHED; lead + room + BEHIND];
    let answer = boundary::write(sheet, pool, &mut memory[lead..lead + room]);
    let (before, from) = memory.split_at(lead);
    let (own, after) = from.split_at(own);
    let stayed = before.iter().chain(after).all(|&byte| byte == UNTOUCHED);
    (answer, own.to_vec(), stayed)
}

pub struct Calls {
    image: Tally,
    write: Tally,
    small: Tally,
    back: Tally,
    texts: Texts,
    counts: Counts,
    coverage: Coverage,
}

impl Calls {
    pub fn new() -> Self {
        Self {
            image: Tally::new("image", Against::Plain),
            write: Tally::new("write", Against::Plain),
            small: Tally::new("write, an output too small", Against::Plain),
            back: Tally::new("what was written, read", Against::Known),
            texts: Texts::new(),
            counts: Counts::default(),
            coverage: Coverage::default(),
        }
    }

    /// `image` answers as the plain writer does.
    pub fn image(&mut self, handed: &Handed) {
        let sheet = handed.sheet();
        let (answer, plain) = (boundary::image(&sheet), plain::image(&sheet));
        let wanted = match plain {
            Ok(size) => Answer::accepted(size, 0),
            Err(refusal) => Answer::refused_at(refusal.number, refusal.stage),
        };
        self.counts.image(wanted.refusal);
        self.image.case(answer == wanted, [sheet.len() as u64, 0, 0], || {
            format!("{}: {answer:?}, and the plain writer says {plain:?}", handed.described())
        });
    }

    /// `write` does as the plain writer does. Gives what was written.
    fn write(
        &mut self,
        random: &mut Random,
        handed: &Handed,
        plain: &Result<Vec<u8>, Refusal>,
        room: usize,
    ) -> Vec<u8> {
        let sheet = handed.sheet();
        let (wanted, bytes) = wanted(plain, room);
        let (answer, written, stayed) = write(random, &sheet, &handed.pool, room, bytes.len());
        self.counts.write(wanted.refusal);
        let tally = if wanted.refusal == FULL { &mut self.small } else { &mut self.write };
        tally.case(answer == wanted && written == bytes && stayed, [sheet.len() as u64, room as u64, 0], || {
            let ours =
                format!("{answer:?}, {}, and the rest {}", shown(&written), if stayed { "stays" } else { "changes" });
            let theirs = format!("{wanted:?}, {}", shown(bytes));
            format!("{} into {room} bytes: {ours}; the plain writer says {theirs}", handed.described())
        });
        written
    }

    /// The file of a sheet reads as the sheet and the pool, and decoder.rs shows what they say.
    fn read_again(&mut self, random: &mut Random, handed: &Handed, file: &[u8]) {
        let (words, pool) = (handed.words.len(), handed.pool.len());
        let mut stores = Stores::at(random.below(8) as usize, 8 * words, pool);
        let answer = stores.read(file);
        let tables = (stores.words(words), stores.pool(pool).to_vec());
        let same = (&tables.0, &tables.1) == (&handed.words, &handed.pool);
        self.back.case(same && answer == Answer::accepted(words as u64, pool as u64), [words as u64, 0, 0], || {
            format!("{}: {} reads {answer:?} and {tables:?}", handed.described(), shown(file))
        });
        if same {
            match self.texts.compare(file, &tables) {
                Compared::Exhausts => self.counts.text_too_long(),
                Compared::Equal(_) | Compared::Differs => {}
            }
        }
    }

    /// Outputs that are a little larger than they have to be, and smaller; now and then of every size.
    fn rooms(random: &mut Random, need: usize) -> Vec<usize> {
        if need <= SHORT_FILE && random.one_in(EVERY_ROOM) {
            return (0..need + BEHIND).collect();
        }
        vec![need + random.below(9) as usize, need - 1, random.below(need as u64) as usize]
    }

    /// All calls on a sheet that may be well-formed. Gives its file if it is.
    pub fn any(&mut self, random: &mut Random, handed: &Handed) -> Option<Vec<u8>> {
        self.image(handed);
        let plain = plain::write(&handed.sheet(), &handed.pool);
        let Ok(need) = plain.as_ref().map(Vec::len) else {
            let room = random.below(100) as usize;
            self.write(random, handed, &plain, room);
            return None;
        };
        for room in Self::rooms(random, need) {
            self.write(random, handed, &plain, room);
        }
        let file = self.write(random, handed, &plain, need);
        self.read_again(random, handed, &file);
        Some(file)
    }

    /// All calls on a sheet that is well-formed. Gives its file.
    pub fn well_formed(&mut self, random: &mut Random, handed: &Handed) -> Option<Vec<u8>> {
        let file = self.any(random, handed);
        if let Some(file) = &file {
            self.counts.well_formed += 1;
            self.coverage.add(file, &handed.words);
        }
        self.write.case(file.is_some(), [handed.words.len() as u64, 0, 0], || {
            format!("{}: well-formed, and the plain writer refuses it", handed.described())
        });
        file
    }

    /// `image` of a sheet that is refused, and too large to be described.
    pub fn refused_image(&mut self, sheet: &[u8], number: u64) {
        let answer = boundary::image(sheet);
        self.counts.image(number);
        self.image.case(answer == Answer::refused(number), [u64::MAX; 3], || {
            format!("a sheet of {} bytes: {answer:?}, and {number} was expected", sheet.len())
        });
    }

    /// `write` of a sheet and a pool that are refused, and too large to be described.
    pub fn refused_write(&mut self, random: &mut Random, sheet: &[u8], pool: &[u8], number: u64) {
        let room = random.below(100) as usize;
        let (answer, _, stayed) = write(random, sheet, pool, room, 0);
        self.counts.write(number);
        self.write.case(answer == Answer::refused(number) && stayed, [u64::MAX; 3], || {
            let sizes = format!("a sheet of {} bytes, a pool of {} and an output of {room}", sheet.len(), pool.len());
            format!("{sizes}: {answer:?} or the output did not stay, and {number} was expected")
        });
    }

    /// Prints the tallies. Gives what this run came upon.
    pub fn finish(self, report: &mut Report) -> (Counts, Coverage) {
        let tallies = [self.image, self.write, self.small, self.back].into_iter().chain(self.texts.finish());
        tallies.for_each(|tally| report.add(tally));
        (self.counts, self.coverage)
    }
}
