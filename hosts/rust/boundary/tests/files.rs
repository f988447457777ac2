//! Whole files against recorded answers of decoder.rs. These tests need no Rust source beside the repository: the
//! answers are those of tests/data/answers.txt, whose head says how they were made.

mod reading;

use std::collections::BTreeMap;

use boundary::{Answer, ABSENT, FULL, LIMIT, STAGE_LIMITS};
use reading::{assert_names, names, read, text, UNTOUCHED};

const ANSWERS: &str = include_str!("data/answers.txt");

/// Every refusal that reading a small file can give, as number@stage.
const REFUSALS: [&str; 31] = [
    "2@1", "4@1", "2@2", "3@2", "5@2", "2@3", "3@3", "5@3", "6@3", "2@4", "3@4", "7@4", "2@5", "3@5", "5@5", "6@5",
    "8@5", "2@6", "3@6", "5@6", "6@6", "2@7", "3@7", "2@8", "3@8", "10@8", "2@9", "3@9", "5@9", "6@9", "9@9",
];

/// The rows of docs/DIFFERENCES.md by which decoder.rs parts from us on a file that it can be given.
const ROWS: [&str; 9] = ["5", "11", "12", "13", "14", "15", "16", "17", "18"];

/// Those by which decoder.rs reads on, and takes the file or not.
const READS_ON: [&str; 5] = ["11", "12", "13", "14", "15"];

/// The names of types without fields.
const SCALARS: &str = "\
    i1 i4 i8 i16 i32 i64 f16 bf16 f32 tf32 f64 f8e4m3fn f8e5m2 f8e8m0fnu f4e2m1fn f8e5m3fnu token";

/// What else the texts have to show, between bars.
const SHOWN: &str = "\
    ptr<|tile<|tensor_view<|partition_view<|gather_scatter_view<|strided_view<|) -> (|ptr_attr=|\
    , padding=|public, constant=true|private, constant=false|unknown, constant=|entry @|func @|Unknown|\
    DICompileUnit|DIFile|DILexicalBlock|DILoc|DISubprogram|CallSite|=== Producer ===|bytecode v13.2\\n|\
    bytecode v13.3\\n|bytecode v13.4\\n|<invalid utf8>";

/// A line of the list.
struct Case {
    file: Vec<u8>,
    ours: &'static str,
    row: &'static str,
    rust: &'static str,
}

fn bytes(hex: &str) -> Vec<u8> {
    let byte = |at: usize| u8::from_str_radix(&hex[at..at + 2], 16).expect("two hex digits");
    (0..hex.len()).step_by(2).map(byte).collect()
}

fn cases() -> Vec<Case> {
    let lines = ANSWERS.lines().filter(|line| !line.starts_with('#'));
    let case = |line: &'static str| {
        let mut parts = line.splitn(4, ' ');
        let mut part = || parts.next().expect("a line has four parts");
        Case { file: bytes(part()), ours: part(), row: part(), rust: part() }
    };
    lines.map(case).collect()
}

/// The number that an error of decoder.rs stands for.
fn number(error: &str) -> u64 {
    let texts = [
        ("decode: unexpected end of data", 2),
        ("decode: varint overflow", 3),
        ("decode: invalid magic number", 4),
        ("decode: expected padding byte", 5),
        ("decode: debug attribute offsets out of range", 6),
        ("decode: debug index offsets out of range", 6),
        ("producer string index out of range", 7),
        ("decode: unknown debug attribute tag", 9),
    ];
    let text = error.strip_prefix("error \"").expect("an error");
    texts.iter().find(|(start, _)| text.starts_with(start)).expect("a known error").1
}

fn refusal(ours: &str) -> Answer {
    let (number, stage) = ours.split_once('@').expect("a number and a stage");
    Answer::refused_at(number.parse().unwrap(), stage.parse().unwrap())
}

#[test]
fn accepted_files_have_the_text_of_decoder_rs() {
    let accepted: Vec<Case> = cases().into_iter().filter(|case| case.ours == "0").collect();
    assert!(accepted.len() >= 200, "{} accepted files", accepted.len());
    for Case { file, row, rust, .. } in accepted {
        let (words, pool) = read(&file);
        let text = text(&file, &words, &pool).escape_default().to_string();
        assert_eq!((row, rust), ("-", format!("text \"{text}\"").as_str()), "{file:02X?}");
    }
}

/// The recorded texts have their newlines escaped.
#[test]
fn types_have_the_names_of_decoder_rs() {
    let mut rows = 0;
    for Case { file, rust, .. } in cases().iter().filter(|case| case.ours == "0") {
        let names = names(rust.split("\\n"));
        assert_names(&read(file).0, &names);
        rows += names.len();
    }
    assert!(rows >= 250, "{rows} types");
}

#[test]
fn refused_files_change_nothing() {
    let refused: Vec<Case> = cases().into_iter().filter(|case| case.ours != "0").collect();
    assert!(refused.len() >= 120, "{} refused files", refused.len());
    for Case { file, ours, .. } in refused {
        let wanted = refusal(ours);
        let (mut sheet, mut pool) = ([UNTOUCHED; 400], [UNTOUCHED; 100]);
        assert_eq!(boundary::measure(&file), wanted, "{file:02X?}");
        assert_eq!(boundary::read(&file, &mut sheet, &mut pool), wanted, "{file:02X?}");
        assert!(sheet == [UNTOUCHED; 400] && pool == [UNTOUCHED; 100], "{file:02X?}");
        for view in [boundary::string, boundary::constant, boundary::body] {
            assert_eq!(view(&file, 0), wanted, "{file:02X?}");
        }
    }
}

/// decoder.rs gives the error of the same number, or parts by a row of docs/DIFFERENCES.md.
#[test]
fn refusals_are_those_of_decoder_rs_or_listed() {
    let mut rows = BTreeMap::new();
    for case in cases().iter().filter(|case| case.ours != "0") {
        if case.row == "-" {
            assert_eq!(number(case.rust), refusal(case.ours).refusal, "{:02X?}", case.file);
        } else {
            let reads_on = READS_ON.contains(&case.row);
            assert!(reads_on || case.rust == "panic", "{:02X?}", case.file);
            *rows.entry(case.row).or_insert(0) += 1;
        }
    }
    let mut listed = ROWS;
    listed.sort_unstable();
    assert_eq!(rows.into_keys().collect::<Vec<_>>(), listed);
}

#[test]
fn the_list_has_every_kind() {
    let cases = cases();
    assert!(cases.len() >= 300, "{} cases", cases.len());
    for wanted in REFUSALS {
        assert!(cases.iter().any(|case| case.ours == wanted), "no file is refused with {wanted}");
    }
    let texts: String = cases.iter().filter(|case| case.ours == "0").map(|case| case.rust).collect();
    for name in SCALARS.split(' ') {
        assert!(texts.contains(&format!("] {name}\\n")), "no text has {name}");
    }
    for word in SHOWN.split('|') {
        assert!(texts.contains(word), "no text has {word:?}");
    }
}

/// The text does not show all words; the plain reader gives them.
#[test]
fn the_plain_reader_says_the_same() {
    for Case { file, ours, .. } in cases() {
        match plain::read(&file) {
            Ok(reading) => assert_eq!((ours, read(&file)), ("0", (reading.words, reading.pool)), "{file:02X?}"),
            Err(refused) => assert_eq!(format!("{}@{}", refused.number, refused.stage), ours, "{file:02X?}"),
        }
    }
}

/// Each store that is one too small is refused and stays; a larger one stays behind the result.
#[test]
fn stores_of_other_sizes() {
    let mut small_pools = 0;
    for Case { file, .. } in cases().iter().filter(|case| case.ours == "0") {
        let (words, pool) = read(file);
        let fits = (8 * words.len(), pool.len());
        let answer = Answer::accepted(words.len() as u64, pool.len() as u64);
        let into = |sheet: usize, pool: usize| {
            let (mut sheet, mut pool) = (vec![UNTOUCHED; sheet], vec![UNTOUCHED; pool]);
            (boundary::read(file, &mut sheet, &mut pool), sheet, pool)
        };
        let (given, sheet, rest) = into(fits.0 + 15, fits.1 + 3);
        assert_eq!(given, answer);
        assert_eq!(rest, [&pool[..], &[UNTOUCHED; 3]].concat());
        assert_eq!(sheet[fits.0..], [UNTOUCHED; 15]);
        let (given, sheet, rest) = into(fits.0 - 1, fits.1);
        assert_eq!(given, Answer::refused(FULL));
        assert!(sheet.iter().chain(&rest).all(|&byte| byte == UNTOUCHED));
        if fits.1 > 0 {
            small_pools += 1;
            let (given, sheet, rest) = into(fits.0, fits.1 - 1);
            assert_eq!(given, Answer::refused(FULL));
            assert!(sheet.iter().chain(&rest).all(|&byte| byte == UNTOUCHED));
        }
    }
    assert!(small_pools >= 30, "{small_pools} files have a pool");
}

type View = fn(&[u8], u64) -> Answer;

/// The bytes that a view shows are those of its row in the pool, row after row; past the last row there is none.
#[test]
fn views_show_the_rows_of_the_pool() {
    let mut rows = [0; 3];
    for Case { file, .. } in cases().iter().filter(|case| case.ours == "0") {
        let (words, pool) = read(file);
        let mut shown = Vec::new();
        let tables: [(View, usize); 3] = [(boundary::string, 6), (boundary::constant, 10), (boundary::body, 14)];
        for (i, (view, count)) in tables.into_iter().enumerate() {
            for index in 0..words[count] {
                let answer = view(file, index);
                assert_eq!((answer.refusal, answer.stage), (0, 0), "row {index} of {file:02X?}");
                shown.extend_from_slice(&file[answer.first as usize..][..answer.second as usize]);
                rows[i] += 1;
            }
            for index in [words[count], words[count] + 1, u64::MAX] {
                assert_eq!(view(file, index), Answer::refused(ABSENT), "row {index} of {file:02X?}");
            }
        }
        assert_eq!(shown, pool, "{file:02X?}");
    }
    assert!(rows.into_iter().all(|rows| rows >= 20), "{rows:?} rows");
}

/// The memory of such a file is never touched beyond its first bytes.
#[test]
fn the_limit() {
    let case = cases().into_iter().find(|case| case.ours == "0").expect("an accepted file");
    let accepted = boundary::measure(&case.file);
    let mut file = vec![0; (1 << 30) + 1];
    file[..case.file.len()].copy_from_slice(&case.file);
    let (mut sheet, mut pool) = ([UNTOUCHED; 400], [UNTOUCHED; 100]);
    let refused = Answer::refused_at(LIMIT, STAGE_LIMITS);
    assert_eq!(boundary::read(&file, &mut sheet, &mut pool), refused);
    assert!(sheet == [UNTOUCHED; 400] && pool == [UNTOUCHED; 100]);
    assert_eq!(boundary::measure(&file), refused);
    assert_eq!(boundary::measure(&file[..1 << 30]), accepted);
}
