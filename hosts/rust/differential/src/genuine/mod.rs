//! Files of cutile-ir's own writer, which another program made, each beside what cutile-ir's `decode_bytecode` printed of
//! it. Those without hints are accepted with that text, written back and read again; those with hints are refused.

mod keep;

use std::path::{Path, PathBuf};
use std::{fs, io};

use boundary::Answer;

use crate::files::{ask, shown, Coverage, Run, Rust};
use crate::sheets::{Calls, Handed};
use crate::tally::{Against, Random, Report, Tally};

pub use keep::keep;

/// The refusal of a function with hints.
const HINTS: Answer = Answer::refused_at(10, 8);
/// How many files a run has to read, and how many of them are to have hints.
const LEAST_FILES: usize = 3_000;
const LEAST_WITH_HINTS: usize = 200;
/// How many kinds of types and of debug attributes there are.
const KINDS: (usize, usize) = (24, 7);
/// Files that are kept in this repository.
const KEPT: &str = concat!(env!("CARGO_MANIFEST_DIR"), "/../../files");
/// The folder of files that have hints.
const WITH_HINTS: &str = "hints";
/// The folders that the writer fills: by a fixed seed, and by another.
const WRITTEN: [&str; 2] = ["fixed", "seeded"];

/// A file of the writer.
struct Genuine {
    name: String,
    file: Vec<u8>,
    printed: String,
    hints: bool,
}

/// The names of a folder's files, in order.
fn names(folder: &Path) -> io::Result<Vec<PathBuf>> {
    let mut paths = fs::read_dir(folder)?.map(|entry| Ok(entry?.path())).collect::<io::Result<Vec<_>>>()?;
    paths.retain(|path| path.extension().is_some_and(|extension| extension == "tileirbc"));
    paths.sort();
    Ok(paths)
}

/// The files that the writer put into a folder, with the list of those that have hints.
fn written(folder: &Path) -> io::Result<Vec<Genuine>> {
    let with_hints = fs::read_to_string(folder.join("hints.txt"))?;
    let genuine = |path: PathBuf| {
        let name = path.file_name().unwrap_or_default().to_string_lossy().into_owned();
        let hints = with_hints.lines().any(|line| line == name);
        let printed = fs::read_to_string(path.with_extension("txt"))?;
        Ok(Genuine { name, file: fs::read(path)?, printed, hints })
    };
    names(folder)?.into_iter().map(genuine).collect()
}

/// All files: those that are kept in this repository, and those that the writer put below a folder, if there is one.
pub fn files(folder: Option<&Path>) -> io::Result<Vec<Vec<u8>>> {
    let mut folders = vec![PathBuf::from(KEPT), Path::new(KEPT).join(WITH_HINTS)];
    folders.extend(folder.into_iter().flat_map(|folder| WRITTEN.map(|name| folder.join(name))));
    let mut files = Vec::new();
    for folder in folders {
        for path in names(&folder)? {
            files.push(fs::read(path)?);
        }
    }
    Ok(files)
}

/// Whether decoder.rs says here what was printed of a file.
fn says(rust: &Rust, printed: &str) -> bool {
    match rust {
        Rust::Text(text) => text == printed,
        Rust::Error(_, message) => printed.strip_prefix("error: ").is_some_and(|error| error.contains(message)),
        Rust::Panic(_) => printed.starts_with("panic: "),
    }
}

struct Comparison {
    run: Run,
    calls: Calls,
    printed: Tally,
    back: Tally,
    refused: Tally,
}

impl Comparison {
    fn new() -> Self {
        Self {
            run: Run::new(),
            calls: Calls::new(),
            printed: Tally::new("as it was printed", Against::Rust),
            back: Tally::new("written back, as printed", Against::Rust),
            refused: Tally::new("hints are refused", Against::Known),
        }
    }

    /// The file of the same tables shows the same text: it has all sections of which decoder.rs shows something.
    fn write_back(&mut self, random: &mut Random, handed: &Handed, genuine: &Genuine) {
        let file = self.calls.well_formed(random, handed);
        let rust = file.as_deref().map(ask);
        let equal = rust.as_ref().is_some_and(|rust| says(rust, &genuine.printed));
        self.back.case(equal, [genuine.file.len() as u64, 0, 0], || {
            format!("{}, written back as {}: {rust:?}", genuine.name, shown(&file.unwrap_or_default()))
        });
    }

    fn file(&mut self, random: &mut Random, genuine: &Genuine) {
        let Genuine { name, file, printed, hints } = genuine;
        let size = [file.len() as u64, 0, 0];
        let accepted = self.run.file(random, file);
        if *hints {
            let (answer, rust) = (boundary::measure(file), ask(file));
            self.refused.case(answer == HINTS, size, || format!("{name} has hints: {answer:?}"));
            self.printed.case(says(&rust, printed), size, || format!("{name}: {rust:?}, and {printed:?} was printed"));
            return;
        }
        let text = accepted.as_ref().and_then(|(_, text)| text.as_ref());
        self.printed.case(text == Some(printed), size, || format!("{name}: {text:?}, and {printed:?} was printed"));
        if let Some(((words, pool), _)) = accepted {
            self.write_back(random, &Handed { words, pool, ..Handed::default() }, genuine);
        }
    }

    fn finish(self, report: &mut Report) -> Coverage {
        let (_, coverage) = self.run.finish(report);
        self.calls.finish(report);
        [self.printed, self.back, self.refused].into_iter().for_each(|tally| report.add(tally));
        coverage
    }
}

/// Each file that is kept in this repository is one that the writer makes, and so is the text beside it.
fn kept(fixed: &[Genuine]) -> io::Result<Tally> {
    let mut tally = Tally::new("files that are kept", Against::Known);
    for (folder, hints) in [(PathBuf::from(KEPT), false), (Path::new(KEPT).join(WITH_HINTS), true)] {
        for path in names(&folder)? {
            let (file, printed) = (fs::read(&path)?, fs::read_to_string(path.with_extension("txt"))?);
            let name = path.file_name().unwrap_or_default().to_string_lossy();
            let made = fixed.iter().find(|genuine| genuine.name == name);
            let equal = made.is_some_and(|made| (&made.file, &made.printed, made.hints) == (&file, &printed, hints));
            tally.case(equal, [0; 3], || format!("{name} is not what the writer makes"));
        }
    }
    Ok(tally)
}

/// What a whole run has to come upon.
fn enough(files: &[Genuine], coverage: &Coverage) -> Tally {
    let mut tally = Tally::new("enough and of every kind", Against::Demand);
    let hints = files.iter().filter(|genuine| genuine.hints).count();
    println!("  files: {}, with hints {hints}; kinds of types and attributes: {:?}", files.len(), coverage.kinds());
    tally.case(files.len() >= LEAST_FILES, [0; 3], || format!("only {} files", files.len()));
    tally.case(hints >= LEAST_WITH_HINTS, [0; 3], || format!("only {hints} files have hints"));
    tally.case(coverage.kinds() == KINDS, [0; 3], || format!("{:?} kinds", coverage.kinds()));
    tally
}

/// Compares the files of two folders: `fixed`, of which some are kept in this repository, and `seeded`.
pub fn compare(folder: &Path, random: &mut Random, report: &mut Report) -> io::Result<()> {
    println!("files of the genuine writer:");
    let [fixed, seeded] = WRITTEN.map(|name| written(&folder.join(name)));
    let (fixed, seeded) = (fixed?, seeded?);
    report.add(kept(&fixed)?);
    let mut files: Vec<Genuine> = fixed.into_iter().chain(seeded).collect();
    files.truncate(report.share_of(files.len() as u64) as usize);
    let mut comparison = Comparison::new();
    files.iter().for_each(|genuine| comparison.file(random, genuine));
    let coverage = comparison.finish(report);
    report.demand(enough(&files, &coverage));
    Ok(())
}
