//! Caches of files: histories of calls by several instances. After every call the answer and all memory are compared
//! with the plain cache. In every second history a host damages the cache between calls. In the others what an instance
//! fetches is compared with what it put, and its calls are made once more between other calls of the others.

mod apart;
mod calls;
mod counts;
mod damage;
mod history;
mod ledger;
mod lent;
mod run;
mod sides;
mod stock;

use std::io;
use std::path::Path;

use crate::files::Dice;
use crate::tally::{Random, Report};
use counts::CACHES;
use history::History;
use run::Run;
use stock::Stock;

/// Histories of 16 slots, and as many of 64.
const HISTORIES: u64 = 1_000;

/// With the files of the genuine writer that are in a folder, if there is one.
pub fn compare(genuine: Option<&Path>, random: &mut Random, report: &mut Report) -> io::Result<()> {
    println!("caches:");
    let (stock, mut run) = (Stock::new(genuine)?, Run::new());
    println!("  files of the genuine writer to put: {}", stock.genuine());
    let mut dice = Dice::new(random);
    for i in 0..report.share_of(HISTORIES) {
        let files = stock.some(&mut dice);
        for calls in CACHES {
            let history = History::any(&mut dice, calls, &files);
            if i % 2 == 0 {
                run.undamaged(&mut dice, &history);
            } else {
                run.damaged(&mut dice, &history);
            }
        }
    }
    run.limit(&mut dice);
    let counts = run.finish(report);
    report.demand(counts.finish());
    Ok(())
}
