//! Chooses the files of the writer that are kept in this repository: small ones that together have every kind.

use std::cmp::Reverse;
use std::collections::BTreeSet;
use std::fmt::Write;
use std::path::Path;
use std::{fs, io};

use dump::Sheet;
use plain::fields::parts;

use super::{names, written, Genuine, WITH_HINTS};

const KEPT_FILES: usize = 40;
/// No file that is kept has more.
const MOST_BYTES: usize = 12_000;
/// Among files of so many bytes, what they have counts more than how long they are.
const FEW_BYTES: usize = 1024;
const SUMS: &str = "SHA256SUMS";

/// Something that a file has, in its version. It may be asked for again when all kinds were met, or only once.
#[derive(PartialEq, Eq, PartialOrd, Ord)]
struct Kind {
    once: bool,
    version: u64,
    what: &'static str,
    value: u64,
}

/// A type by its tag, and by whether its optional field is there.
fn of_type(row: &[u64]) -> (&'static str, u64) {
    let optional = parts(row[0], &row[1..]).is_some_and(|parts| parts.flags & 1 != 0);
    (if optional { "a type with its optional field" } else { "a type" }, row[0])
}

/// What a file has, if it is accepted.
fn kinds(file: &[u8]) -> BTreeSet<Kind> {
    let Ok(plain::Reading { words, pool, .. }) = plain::read(file) else { return BTreeSet::new() };
    let sheet = Sheet::new(&words, &pool);
    let mut kinds: Vec<(&str, u64)> = sheet.types().into_iter().map(of_type).collect();
    kinds.extend(sheet.globals().iter().map(|global| ("a global", 2 * global[4] + global[5])));
    kinds.extend(sheet.functions().iter().map(|function| ("a function", function[2])));
    kinds.extend(sheet.attributes().iter().map(|attribute| ("an attribute", attribute[0])));
    kinds.extend((words[3] > 0).then_some(("a producer", 0)));
    kinds.extend((!pool.is_ascii()).then_some(("bytes that are no ASCII", 0)));
    let version = words[1];
    let tables = (0..7).map(|table| match words[6 + 2 * table as usize] {
        0 => Kind { once: true, version, what: "an empty table", value: table },
        128.. => Kind { once: true, version: 0, what: "a long table", value: table },
        _ => Kind { once: false, version, what: "a table", value: table },
    });
    kinds.into_iter().map(|(what, value)| Kind { once: false, version, what, value }).chain(tables).collect()
}

/// The file with the most kinds that were not met, for its size, and then the next. When all were met, they are met
/// once more.
fn chosen(files: &[Genuine]) -> Vec<&Genuine> {
    let small = files.iter().filter(|genuine| !genuine.hints && genuine.file.len() <= MOST_BYTES);
    let mut left: Vec<_> = small.map(|genuine| (genuine, kinds(&genuine.file))).collect();
    let (mut met, mut chosen) = (BTreeSet::new(), Vec::new());
    while chosen.len() < KEPT_FILES {
        let worth = |(genuine, kinds): &(&Genuine, BTreeSet<Kind>)| {
            let size = genuine.file.len();
            ((kinds.difference(&met).count() << 20) / (size + FEW_BYTES), Reverse(size))
        };
        let best = (0..left.len()).max_by_key(|&i| worth(&left[i])).expect("the writer made more files");
        if left[best].1.is_subset(&met) {
            met.retain(|kind: &Kind| kind.once);
        } else {
            let (genuine, kinds) = left.swap_remove(best);
            met.extend(kinds);
            chosen.push(genuine);
        }
    }
    chosen
}

/// The smallest file with hints of each version.
fn with_hints(files: &[Genuine]) -> Vec<&Genuine> {
    let of = |minor: u8| files.iter().filter(move |genuine| genuine.hints && genuine.file[9] == minor);
    (2..5).filter_map(|minor| of(minor).min_by_key(|genuine| genuine.file.len())).collect()
}

/// Puts files into a folder in place of those that are there, each with its text. Gives their sums.
fn put(mut files: Vec<&Genuine>, folder: &Path, below: &str) -> io::Result<String> {
    fs::create_dir_all(folder)?;
    for path in names(folder)? {
        fs::remove_file(path.with_extension("txt"))?;
        fs::remove_file(path)?;
    }
    let mut sums = String::new();
    files.sort_by_key(|genuine| &genuine.name);
    for genuine in files {
        let path = folder.join(&genuine.name);
        fs::write(&path, &genuine.file)?;
        fs::write(path.with_extension("txt"), &genuine.printed)?;
        writeln!(sums, "{}  {below}{}", sha256::hex(&genuine.file), genuine.name).expect("a string takes all");
    }
    Ok(sums)
}

/// Keeps some of the files in one folder in another, with a list of their sums.
pub fn keep(from: &Path, to: &Path) -> io::Result<()> {
    let files = written(from)?;
    let mut sums = put(chosen(&files), to, "")?;
    sums += &put(with_hints(&files), &to.join(WITH_HINTS), "hints/")?;
    fs::write(to.join(SUMS), sums)
}
