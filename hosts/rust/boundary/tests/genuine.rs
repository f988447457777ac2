//! Files that cutile-ir's own writer made, each beside the text that its `decode_bytecode` printed. They are kept in
//! hosts/files, whose README.md says how they were made. No Rust source is needed.

mod reading;

use std::collections::{BTreeMap, BTreeSet};
use std::fs;
use std::path::{Path, PathBuf};

use boundary::Answer;
use dump::Sheet;
use reading::{assert_names, names, read, text, UNTOUCHED};

const FOLDER: &str = concat!(env!("CARGO_MANIFEST_DIR"), "/../../files");

/// The refusal of a function with hints.
const HINTS: Answer = Answer::refused_at(10, 8);

/// The tags of types that the writer uses, from 13.2, 13.3 and 13.4 on.
const TAGS: [&[u64]; 3] =
    [&[0, 1, 2, 3, 4, 5, 6, 7, 8, 9, 10, 11, 12, 13, 14, 15, 16, 17, 18], &[19, 20, 21, 22], &[0x82]];

/// In which order the writer lays sections down: Global, Func, Constant, Debug, Type, String, Producer.
const ORDER: [u64; 7] = [6, 2, 4, 3, 5, 1, 7];

fn paths(folder: &Path) -> Vec<PathBuf> {
    let entries = fs::read_dir(folder).expect("the folder is there");
    let mut paths: Vec<PathBuf> = entries.map(|entry| entry.expect("an entry can be read").path()).collect();
    paths.retain(|path| path.extension().is_some_and(|extension| extension == "tileirbc"));
    paths.sort();
    paths
}

/// A file and what was printed of it.
fn load(path: &Path) -> (Vec<u8>, String) {
    let printed = fs::read_to_string(path.with_extension("txt")).expect("a text stands beside the file");
    (fs::read(path).expect("the file can be read"), printed)
}

fn accepted() -> Vec<(Vec<u8>, String)> {
    let files: Vec<_> = paths(Path::new(FOLDER)).iter().map(|path| load(path)).collect();
    assert_eq!(files.len(), 40);
    files
}

#[test]
fn the_text_is_the_one_that_was_printed() {
    for (file, printed) in accepted() {
        let (words, pool) = read(&file);
        assert_eq!(text(&file, &words, &pool), printed);
    }
}

#[test]
fn types_have_the_names_that_were_printed() {
    let mut rows = 0;
    for (file, printed) in accepted() {
        let names = names(printed.lines());
        assert_names(&read(&file).0, &names);
        rows += names.len();
    }
    assert!(rows >= 200, "{rows} types");
}

/// The text does not show all words; the plain reader gives them.
#[test]
fn the_plain_reader_says_the_same() {
    for (file, printed) in accepted() {
        let reading = plain::read(&file).expect("the file is accepted");
        assert_eq!(read(&file), (reading.words, reading.pool), "{printed}");
    }
}

/// What is written back has the same tables and the same text. But for the three files that have no section but Debug,
/// it is another file.
#[test]
fn written_back_and_read_again() {
    let mut others = 0;
    for (file, printed) in accepted() {
        let (words, pool) = read(&file);
        let sheet: Vec<u8> = words.iter().flat_map(|word| word.to_le_bytes()).collect();
        let mut written = vec![UNTOUCHED; boundary::image(&sheet).first as usize];
        assert_eq!(boundary::write(&sheet, &pool, &mut written), Answer::accepted(written.len() as u64, 0));
        assert_eq!(plain::write(&sheet, &pool).as_ref(), Ok(&written), "{printed}");
        others += u32::from(written != file);
        assert_eq!(text(&written, &words, &pool), printed);
        assert_eq!(read(&written), (words, pool), "{printed}");
    }
    assert_eq!(others, 37);
}

/// Every tag of a type that the version has, every tag of an attribute, and every table with rows and without.
#[test]
fn every_version_and_kind() {
    let mut met: BTreeMap<u64, [BTreeSet<u64>; 4]> = BTreeMap::new();
    for (file, _) in accepted() {
        let (words, pool) = read(&file);
        let sheet = Sheet::new(&words, &pool);
        let [types, attributes, tables, empty] = met.entry(words[1]).or_default();
        types.extend(sheet.types().iter().map(|row| row[0]));
        attributes.extend(sheet.attributes().iter().map(|row| row[0]));
        for table in 0..7 {
            let with_rows = words[6 + 2 * table as usize] > 0;
            if with_rows { &mut *tables } else { &mut *empty }.insert(table);
        }
    }
    assert_eq!(met.keys().copied().collect::<Vec<_>>(), [2, 3, 4]);
    for (minor, [types, attributes, tables, empty]) in met {
        assert_eq!(types, TAGS[..minor as usize - 1].concat().into_iter().collect(), "13.{minor}");
        assert_eq!(attributes, (0..7).collect(), "13.{minor}");
        assert_eq!(tables, (0..7).collect(), "13.{minor}");
        // The writer always lays down an attribute.
        assert_eq!(empty, [0, 1, 2, 3, 4, 6].into(), "13.{minor}");
    }
}

/// The sections stand in the writer's order, which is not ours.
#[test]
fn sections_in_the_writers_order() {
    for (file, printed) in accepted() {
        let places = ORDER.map(|id| boundary::section(&file, id));
        let present: Vec<u64> = places.iter().filter(|place| place.refusal == 0).map(|place| place.first).collect();
        assert!(present.is_sorted() && places[3].refusal == 0, "{printed}");
    }
}

#[test]
fn hints_are_refused() {
    let files = paths(&Path::new(FOLDER).join("hints"));
    assert_eq!(files.len(), 3);
    for path in files {
        let (file, _) = load(&path);
        let (mut sheet, mut pool) = (vec![UNTOUCHED; 1 << 14], vec![UNTOUCHED; 1 << 12]);
        assert_eq!(boundary::measure(&file), HINTS);
        assert_eq!(boundary::read(&file, &mut sheet, &mut pool), HINTS);
        assert!(sheet.iter().chain(&pool).all(|&byte| byte == UNTOUCHED));
        for view in [boundary::string, boundary::constant, boundary::body] {
            assert_eq!(view(&file, 0), HINTS);
        }
    }
}

/// The list beside the files has each of them.
#[test]
fn the_sums_are_right() {
    let folder = Path::new(FOLDER);
    let mut sums = String::new();
    for path in paths(folder).into_iter().chain(paths(&folder.join("hints"))) {
        let name = path.strip_prefix(folder).expect("the file is below the folder");
        sums += &format!("{}  {}\n", sha256::hex(&load(&path).0), name.display());
    }
    assert_eq!(fs::read_to_string(folder.join("SHA256SUMS")).expect("the list is there"), sums);
}
