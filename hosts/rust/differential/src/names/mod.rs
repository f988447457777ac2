//! The names of types: the library against the plain names, answer by answer and byte by byte, and against decoder.rs,
//! whose text of the same tables has a line for each row. Its lines are compared for every accepted file, here and
//! elsewhere.

mod apart;
mod counts;
mod damage;
mod lines;
mod made;
mod output;
mod sides;
mod traits;

pub use lines::Lines;

use boundary::{ABSENT, FULL, SHEET};

use crate::files::{shown, Dice, Texts};
use crate::sheets::{damaged, Handed, Wounds, WOUNDS};
use crate::tally::{Against, Random, Report, Tally};
use counts::{Counts, Kind};
use sides::{ask, plain_name, MOST_NAME};

/// Sheets that are well-formed. Of each there is a copy whose words are damaged, and one whose bytes are.
const MADE_SHEETS: u64 = 20_000;

/// The comparison of calls, one by one.
pub struct Run {
    calls: Tally,
    meant: Tally,
    texts: Texts,
    known: Lines,
    counts: Counts,
    wounds: Wounds,
}

impl Run {
    fn new() -> Self {
        Self {
            calls: Tally::new("type_text", Against::Plain),
            meant: Tally::new("what was meant", Against::Known),
            texts: Texts::new(),
            known: Lines::new("names that are known"),
            counts: Counts::new(),
            wounds: Wounds::new(),
        }
    }

    /// One call of both sides. Gives the number that the library answers.
    fn call(&mut self, random: &mut Random, sheet: &[u8], row: u64, room: usize) -> u64 {
        let said = ask(random, sheet, row, room);
        self.counts.call(sheet, row, said.ours);
        self.calls.case(said.same, [sheet.len() as u64, row, room as u64], || {
            let (ours, plain) = (said.ours, said.plain);
            format!("row {row} of {} into {room} bytes: {ours:?}, plain: {plain:?}, or other bytes", shown(sheet))
        });
        said.ours.refusal
    }

    /// A row that has a name: in an output of as many bytes, whose answer is given, and in others of no bytes, of one
    /// less, of more, and of any number below.
    fn rooms(&mut self, random: &mut Random, sheet: &[u8], row: u64, name: &[u8]) -> u64 {
        let size = name.len();
        let more = size + 1 + random.below(9) as usize;
        for (kind, room, number) in
            [(Kind::NoBytes, 0, FULL), (Kind::ByteTooSmall, size - 1, FULL), (Kind::Larger, more, 0)]
        {
            let answered = self.call(random, sheet, row, room);
            self.counts.met(kind, answered == number);
        }
        let less = random.below(size as u64) as usize;
        self.call(random, sheet, row, less);
        let answered = self.call(random, sheet, row, size);
        self.counts.met(Kind::Exact, answered == 0);
        self.counts.met(Kind::Unknown, answered == 0 && name.contains(&b'?'));
        answered
    }

    /// A row that need not be there, of a sheet that need not be well-formed. Gives what the library answers where
    /// there is room, if no more than `MOST_NAME` bytes are needed.
    fn row(&mut self, random: &mut Random, sheet: &[u8], row: u64) -> u64 {
        match plain_name(sheet, row) {
            Ok(name) => self.rooms(random, sheet, row, &name),
            Err(refused) => {
                self.call(random, sheet, row, 0);
                let room = if refused.refusal == FULL { MOST_NAME } else { random.below(200) as usize };
                let answered = self.call(random, sheet, row, room);
                self.counts.met(Kind::TooLong, answered == FULL);
                answered
            }
        }
    }

    /// All rows of a sheet that was made, and rows that it does not have.
    fn made(&mut self, random: &mut Random, handed: &Handed, rows: u64) {
        let sheet = handed.sheet();
        for row in 0..rows {
            if self.row(random, &sheet, row) == 0 {
                self.counts.traits.add(&handed.words, row);
                self.counts.met(Kind::Last, row + 1 == rows);
            }
        }
        for row in [rows, rows + 1, u64::MAX] {
            let absent = self.row(random, &sheet, row) == ABSENT;
            self.counts.met(Kind::Behind, absent && row == rows && rows > 0);
            self.counts.met(Kind::NoTypes, absent && rows == 0);
        }
        self.listed(handed, &sheet);
    }

    /// decoder.rs names the rows of a sheet that was made as well.
    fn listed(&mut self, handed: &Handed, sheet: &[u8]) {
        let file = plain::write(sheet, &handed.pool);
        self.meant.case(file.is_ok(), [sheet.len() as u64, 0, 0], || {
            format!("{}: meant to be well-formed, and the plain writer says {file:?}", handed.described())
        });
        if let Ok(file) = file {
            self.texts.compare(&file, &(handed.words.clone(), handed.pool.clone()));
        }
    }

    /// Some rows of a sheet that was damaged. Gives whether it is well-formed all the same.
    fn damaged(&mut self, random: &mut Random, sheet: &[u8]) -> bool {
        let some = random.below(9);
        let answers = [0, some, u64::MAX].map(|row| self.row(random, sheet, row));
        !answers.contains(&SHEET)
    }

    fn finish(self, report: &mut Report) {
        let tallies = [self.calls, self.meant].into_iter().chain(self.texts.finish()).chain([self.known.finish()]);
        tallies.for_each(|tally| report.add(tally));
        report.demand(self.counts.finish());
        report.demand(self.wounds.finish(false));
    }
}

pub fn compare(random: &mut Random, report: &mut Report) {
    println!("names of types:");
    let mut run = Run::new();
    let mut dice = Dice::new(random);
    for i in 0..report.share_of(MADE_SHEETS) {
        let (whole, rows) = made::table(&mut dice);
        run.made(&mut dice, &whole, rows);
        let (wound, words_damaged) = damaged(&mut dice, &whole, i as usize % WOUNDS.len());
        let well_formed = run.damaged(&mut dice, &words_damaged.sheet());
        run.wounds.add(wound, well_formed);
        let mut sheet = whole.sheet();
        damage::hurt(&mut dice, &mut sheet);
        run.damaged(&mut dice, &sheet);
    }
    apart::compare(&mut dice, &mut run);
    run.finish(report);
}
