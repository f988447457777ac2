//! Compares every call of the library with encoding.rs and decoder.rs: answers, written bytes, and bytes that must
//! stay; those of a cache, which the Rust does not have, with hosts/rust/plain. Exits with 1 if anything differs.
//!
//! differential [--small] [--genuine FOLDER] [SEED]
//! differential --write-answers PATH
//! differential --keep FROM TO

mod arguments;
mod caches;
mod containers;
mod differences;
mod files;
mod floats;
mod genuine;
mod kinds;
mod memory;
mod names;
mod readers;
mod sheets;
mod sources;
mod tally;
mod writers;

use std::io;
use std::path::Path;
use std::process::ExitCode;

use arguments::Task;
use tally::{Random, Report};

fn compare(seed: u64, share: u64, genuine: Option<&Path>) -> io::Result<ExitCode> {
    println!("comparison with encoding.rs and decoder.rs, seed {seed}, one of {share} cases");
    let mut random = Random::new(seed);
    let mut report = Report::new(share);
    sources::compare(&mut report);
    writers::compare(&mut random, &mut report);
    readers::compare(&mut random, &mut report);
    containers::compare(&mut random, &mut report);
    floats::compare(&mut random, &mut report);
    files::compare(&mut random, &mut report);
    sheets::compare(&mut random, &mut report);
    differences::compare(&mut report);
    match genuine {
        Some(folder) => genuine::compare(folder, &mut random, &mut report)?,
        None => println!("files of the genuine writer: LEFT OUT"),
    }
    caches::compare(genuine, &mut random, &mut report)?;
    names::compare(&mut random, &mut report);
    Ok(if report.finish() { ExitCode::SUCCESS } else { ExitCode::FAILURE })
}

fn done(task: Task) -> io::Result<ExitCode> {
    match task {
        Task::Compare { seed, share, genuine } => compare(seed, share, genuine.as_deref()),
        Task::WriteAnswers(path) => files::write_answers(&path).map(|()| ExitCode::SUCCESS),
        Task::Keep { from, to } => genuine::keep(&from, &to).map(|()| ExitCode::SUCCESS),
    }
}

fn main() -> ExitCode {
    files::expect_panics();
    let done = arguments::task().and_then(|task| done(task).map_err(|error| error.to_string()));
    done.unwrap_or_else(|message| {
        eprintln!("{message}");
        ExitCode::from(2)
    })
}
