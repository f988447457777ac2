//! What the program is asked to do.

use std::path::PathBuf;

const SEED: u64 = 0x5449_4B4F_4D55_4349;
/// A small run has one of so many cases.
const SMALL: u64 = 20;

pub enum Task {
    /// Compares, with one of `share` cases, and with the files of the genuine writer if there are any.
    Compare { seed: u64, share: u64, genuine: Option<PathBuf> },
    /// Writes the fixed list of decoder.rs's answers.
    WriteAnswers(PathBuf),
    /// Chooses files of the genuine writer, and puts them into another folder.
    Keep { from: PathBuf, to: PathBuf },
}

pub fn task() -> Result<Task, String> {
    let mut arguments = std::env::args().skip(1);
    let (mut seed, mut share, mut genuine) = (SEED, 1, None);
    while let Some(argument) = arguments.next() {
        let mut path = || arguments.next().map(PathBuf::from).ok_or(format!("{argument} needs a path"));
        match argument.as_str() {
            "--write-answers" => return Ok(Task::WriteAnswers(path()?)),
            "--keep" => return Ok(Task::Keep { from: path()?, to: path()? }),
            "--genuine" => genuine = Some(path()?),
            "--small" => share = SMALL,
            number => seed = number.parse().map_err(|e| format!("the seed {number:?} is no number: {e}"))?,
        }
    }
    Ok(Task::Compare { seed, share, genuine })
}
