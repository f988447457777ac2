//! Whole files: the library against the plain reader, against the tables from which a file was made, and against the
//! text of decoder.rs, which is made again from the library's sheet, pool and section views.

mod answers;
mod apart;
mod calls;
mod counts;
mod coverage;
mod damage;
mod debug;
mod dice;
mod faults;
mod foretold;
mod judge;
mod made;
mod plan;
mod smallest;
mod texts;
mod types;
mod wire;

pub use answers::write as write_answers;
pub use calls::{Stores, Tables};
pub use counts::REACHABLE;
pub use coverage::{version_class, Coverage, CLASSES};
pub use damage::damaged;
pub use dice::Dice;
pub use faults::faulty;
pub use judge::{ask, expect_panics, quietly, sums_are_checked, wrapping_end, Rust};
pub use made::{make, Made};
pub use smallest::{all as smallest, invalid_utf8, one_section};
pub use texts::{Compared, Texts};
pub use types::{tag as any_tag, TAGS};

use boundary::Answer;
use plain::Refusal;

use crate::memory::exhausts;
use crate::tally::{Against, Random, Report, Tally};
use calls::Calls;
use counts::Counts;
use foretold::{foretell, Outcome};

const FUNC: u64 = 2;
const DEBUG: u64 = 3;

/// Files that are made and not damaged; each has to be accepted. Some damaged copies are accepted too.
const MADE_FILES: u64 = 174_000;
const MOST_SHOWN: usize = 1 << 10;

/// A file in hex; of a long one its first bytes.
pub fn shown(file: &[u8]) -> String {
    let hex: String = file.iter().take(MOST_SHOWN).map(|byte| format!("{byte:02X}")).collect();
    if file.len() > MOST_SHOWN {
        format!("{hex}.. ({} bytes)", file.len())
    } else {
        hex
    }
}

/// The comparison of files, one by one.
pub struct Run {
    calls: Calls,
    texts: Texts,
    refusals: Tally,
    counts: Counts,
    coverage: Coverage,
}

impl Run {
    pub fn new() -> Self {
        Self {
            calls: Calls::new(),
            texts: Texts::new(),
            refusals: Tally::new("refusals of decoder.rs", Against::Rust),
            counts: Counts::default(),
            coverage: Coverage::default(),
        }
    }

    /// Gives the text, if it is decoder.rs's too.
    fn accepted(&mut self, file: &[u8], tables: &Tables) -> Option<String> {
        match self.texts.compare(file, tables) {
            Compared::Equal(text) => {
                self.counts.accepted += 1;
                self.coverage.add(file, &tables.0);
                return Some(text);
            }
            Compared::Exhausts => self.counts.apart("the names of types", file),
            Compared::Differs => {}
        }
        None
    }

    /// decoder.rs does as was foretold: it gives the error with our number, or parts by an entry whose cause was met.
    fn refused(&mut self, file: &[u8], refusal: &Refusal) {
        let size = [file.len() as u64, 0, 0];
        let foretold = foretell(file, refusal);
        if let Outcome::Exhausts(what) = foretold.outcome {
            let exhausts = exhausts(|| drop(ask(file)));
            self.refusals.case(exhausts, size, || {
                format!("{}: {refusal:?}, and decoder.rs has memory enough for {what}", shown(file))
            });
            return self.counts.apart(what, file);
        }
        let rust = ask(file);
        self.counts.refused(refusal.number, refusal.stage, 1);
        if let Some(class) = foretold.class {
            self.counts.class(class, file);
        }
        let alike = foretold.class.is_some() || matches!(rust, Rust::Error(number, _) if number == refusal.number);
        self.refusals.case(alike && foretold.outcome.is(&rust), size, || {
            format!("{}: {refusal:?}, decoder.rs says {rust:?}, and was foretold {foretold:?}", shown(file))
        });
    }

    /// Compares all sides on one file. Gives the tables of a file that is accepted, and its text.
    pub fn file(&mut self, random: &mut Random, file: &[u8]) -> Option<(Tables, Option<String>)> {
        self.counts.files += 1;
        let reading = plain::read(file);
        let tables = self.calls.compare(random, file, &reading);
        match (tables, &reading) {
            (Some(tables), _) => {
                let text = self.accepted(file, &tables);
                Some((tables, text))
            }
            (None, Err(refusal)) => {
                self.refused(file, refusal);
                None
            }
            // The tally of `read` has the difference.
            (None, Ok(_)) => None,
        }
    }

    /// A file that was made from tables gives those tables.
    fn made(&mut self, dice: &mut Dice, made: &Made, meant: &mut Tally) {
        let file = made.plan.lay(dice);
        let tables = self.file(dice, &file).map(|(tables, _)| tables);
        let equal = matches!(&tables, Some((words, pool)) if (words, pool) == (&made.words, &made.pool));
        meant.case(equal, [file.len() as u64, 0, 0], || {
            format!("{}: {tables:?}, and {:?} and {:?} were meant", shown(&file), made.words, made.pool)
        });
    }

    /// A file with faults is refused for the first of them in reading order.
    fn faulty(&mut self, dice: &mut Dice, made: &Made, meant: &mut Tally) {
        let (file, first) = faults::faulty(dice, made);
        self.file(dice, &file);
        let answer = boundary::measure(&file);
        let wanted = Answer::refused_at(first.number, first.stage);
        meant.case(answer == wanted, [file.len() as u64, 0, 0], || {
            format!("{}: {answer:?}, and {wanted:?} was meant", shown(&file))
        });
    }

    /// Prints the tallies. Gives what this run came upon.
    pub fn finish(mut self, report: &mut Report) -> (Counts, Coverage) {
        self.counts.refused(boundary::FULL, boundary::STAGE_CALL, self.calls.rooms);
        self.counts.refused(boundary::ABSENT, boundary::STAGE_CALL, self.calls.outside);
        self.counts.named = self.texts.named();
        self.calls.finish(report);
        self.texts.finish().into_iter().chain([self.refusals]).for_each(|tally| report.add(tally));
        (self.counts, self.coverage)
    }
}

/// How many rows the tables of file `i` may have: few, and now and then many.
pub fn most_rows(dice: &mut Dice, i: u64) -> u64 {
    match i % 4000 {
        0 => 700,
        i if i % 100 == 0 => 16,
        _ => 2 + dice.below(4),
    }
}

pub fn compare(random: &mut Random, report: &mut Report) {
    println!("files:");
    let mut run = Run::new();
    let mut meant = Tally::new("what was meant", Against::Known);
    let mut dice = Dice::new(random);
    for i in 0..report.share_of(MADE_FILES) {
        let most = most_rows(&mut dice, i);
        let made = made::make(&mut dice, most);
        run.made(&mut dice, &made, &mut meant);
        match dice.below(8) {
            0..=3 => {
                let file = damage::damaged(&mut dice, &made);
                run.file(&mut dice, &file);
            }
            4 => run.faulty(&mut dice, &made, &mut meant),
            _ => {}
        }
    }
    apart::compare(&mut dice, &mut run);
    report.add(meant);
    let (counts, coverage) = run.finish(report);
    counts.finish(report);
    report.demand(coverage.finish());
    report.demand(dice.finish());
    report.add(answers::compare());
}
