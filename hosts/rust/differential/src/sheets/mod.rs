//! Sheets that are handed back: the library against the plain judge and writer, refusal by refusal and byte by byte.
//! What is written is read again, and decoder.rs's text of it is made from the sheet.

mod apart;
mod calls;
mod counts;
mod damage;
mod handed;

use crate::files::{make, most_rows, Dice};
use crate::tally::{Random, Report};
pub use calls::Calls;
pub use damage::{damaged, Wounds, WOUNDS};
pub use handed::Handed;

/// Sheets that are well-formed, and how many damaged copies are made of each.
const MADE_SHEETS: u64 = 60_000;
const COPIES: u64 = 2;

pub fn compare(random: &mut Random, report: &mut Report) {
    println!("sheets:");
    let (mut calls, mut wounds) = (Calls::new(), Wounds::new());
    let mut dice = Dice::new(random);
    for i in 0..report.share_of(MADE_SHEETS) {
        let most = most_rows(&mut dice, i);
        let whole = Handed::of(make(&mut dice, most));
        calls.well_formed(&mut dice, &whole);
        for copy in 0..COPIES {
            let first = (i * COPIES + copy) as usize % WOUNDS.len();
            let (wound, damaged) = damaged(&mut dice, &whole, first);
            wounds.add(wound, calls.any(&mut dice, &damaged).is_some());
        }
    }
    apart::compare(&mut dice, &mut calls);
    let (counts, coverage) = calls.finish(report);
    report.demand(counts.finish());
    report.demand(coverage.finish());
    report.demand(wounds.finish(true));
}
