//! The library's names of type rows against names that are known: the lines of decoder.rs's texts, and others.

use boundary::{Answer, ABSENT, FULL};

use super::output::Output;
use super::sides::{plain_name, MOST_NAME};
use crate::files::shown;
use crate::tally::{Against, Tally};

/// The names in a text of decoder.rs, in the order of their rows. No line before them can look like their heading: the
/// newlines of strings are escaped.
fn names(text: &str) -> Vec<&[u8]> {
    let lines = text.split('\n').skip_while(|line| !line.starts_with("=== Types (")).skip(1);
    let number = |row: usize, line: &str| {
        let number = format!("  [{row}] ");
        assert!(line.starts_with(&number), "decoder.rs numbers its lines");
        number.len()
    };
    let lines = lines.take_while(|line| !line.is_empty()).enumerate();
    lines.map(|(row, line)| &line.as_bytes()[number(row, line)..]).collect()
}

pub struct Lines {
    tally: Tally,
    /// How many rows of accepted files decoder.rs named.
    pub listed: u64,
}

impl Lines {
    pub fn new(name: &'static str) -> Self {
        Self { tally: Tally::new(name, Against::Rust), listed: 0 }
    }

    /// A row in an output of so many bytes. Its name is this one; without one, it is longer than the output.
    pub fn row(&mut self, against: Against, sheet: &[u8], row: u64, room: usize, name: Option<&[u8]>) {
        let mut out = Output::new(row, room);
        let answer = boundary::type_text(sheet, row, out.lent());
        let wanted = name.map_or(Answer::refused(FULL), |name| Answer::accepted(name.len() as u64, 0));
        let equal = answer == wanted && out.has(name.unwrap_or_default());
        self.tally.case_against(against, equal, [sheet.len() as u64, row, room as u64], || {
            let (said, name) = (out.lent().escape_ascii(), name.unwrap_or(b"longer").escape_ascii());
            format!("row {row} of {} into {room} bytes: {answer:?}, `{said}`, and it is `{name}`", shown(sheet))
        });
    }

    /// A row whose name is this one, in an output with a few bytes more, and in one that is a byte too small.
    pub fn named(&mut self, against: Against, sheet: &[u8], row: u64, name: &[u8]) {
        let more = name.len() + row as usize % 9;
        self.row(against, sheet, row, more.min(MOST_NAME), (name.len() <= MOST_NAME).then_some(name));
        self.row(against, sheet, row, (name.len() - 1).min(MOST_NAME), None);
    }

    /// The row behind the last is not there.
    fn behind(&mut self, sheet: &[u8], rows: u64) {
        let answer = boundary::type_text(sheet, rows, &mut []);
        self.tally.case_against(
            Against::Known,
            answer == Answer::refused(ABSENT),
            [sheet.len() as u64, rows, 0],
            || format!("row {rows} of {}, which has no more: {answer:?}", shown(sheet)),
        );
    }

    /// All rows of a sheet whose text this is.
    pub fn compare(&mut self, sheet: &[u8], text: &str) {
        let names = names(text);
        for (row, name) in (0..).zip(&names) {
            self.named(Against::Rust, sheet, row, name);
        }
        self.listed += names.len() as u64;
        self.behind(sheet, names.len() as u64);
    }

    /// All of so many rows of a sheet for whose text decoder.rs has no memory: their names are the plain ones.
    pub fn compare_without_text(&mut self, sheet: &[u8], rows: u64) {
        for row in 0..rows {
            match plain_name(sheet, row) {
                Ok(name) => self.named(Against::Plain, sheet, row, &name),
                Err(_) => self.row(Against::Plain, sheet, row, MOST_NAME, None),
            }
        }
        self.behind(sheet, rows);
    }

    pub fn finish(self) -> Tally {
        self.tally
    }
}
