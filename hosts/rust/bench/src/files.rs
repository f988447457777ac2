//! Whole files: reading, viewing and writing beside decode_bytecode and the plain reader and writer.

use oracle::bytecode::decoder::decode_bytecode;

use crate::inputs::{self, Input};
use crate::stores::Stores;
use crate::timing::{row, times, Row};

pub const RUST: &str = "decode_bytecode";
pub const PLAIN: &str = "plain Rust";

/// What is said of an input, and what its times have to reach.
struct Named {
    input: Input,
    read: &'static str,
    measured: &'static str,
    written: &'static str,
    /// At most so much of decode_bytecode's time, and of the plain reader's.
    goals: (f64, Option<f64>),
    calls: usize,
}

/// How many words and bytes the plain reader makes of a file.
pub fn plain_sizes(file: &[u8]) -> (usize, usize) {
    let reading = plain::read(file).expect("a file of the bench is accepted");
    (reading.words.len(), reading.pool.len())
}

/// What is read must be what was written, before it counts how fast that was.
fn check(input: &Input) {
    let mut stores = Stores::of(input);
    stores.read(&input.file);
    assert!(stores.sheet == input.sheet && stores.pool == input.pool, "the tables are others");
    assert_eq!(plain::write(&input.sheet, &input.pool).as_deref(), Ok(&input.file[..]));
}

fn reading(named: &Named) -> Vec<Row> {
    let (file, calls) = (&named.input.file, named.calls);
    let (mut ours, mut again) = (Stores::of(&named.input), Stores::of(&named.input));
    let accepted = |file: &[u8]| decode_bytecode(file).is_ok();
    vec![
        row(
            (named.read, RUST),
            Some(named.goals.0),
            calls,
            times(calls, || ours.read(file).0 > 0),
            times(calls, || accepted(file)),
        ),
        row(
            (named.measured, PLAIN),
            named.goals.1,
            calls,
            times(calls, || again.measure_and_read(file)),
            times(calls, || plain_sizes(file)),
        ),
    ]
}

fn writing(named: &Named) -> Row {
    let Input { sheet, pool, file } = &named.input;
    let mut out = vec![1; file.len()];
    row(
        (named.written, PLAIN),
        None,
        named.calls,
        times(named.calls, || boundary::write(sheet, pool, &mut out).first as usize),
        times(named.calls, || plain::write(sheet, pool).map_or(0, |file| file.len())),
    )
}

/// The last constant, which is judged after all others.
fn viewing(input: &Input, last: u64) -> Row {
    row(
        ("a constant of 10,000 rows viewed", PLAIN),
        Some(1.0),
        1,
        || boundary::constant(&input.file, last).first as usize,
        || plain::constant(&input.file, last).map_or(0, |place| place.start),
    )
}

/// Ten times the rows beside ten times the work.
fn growth(few: &Input, many: &Input) -> Row {
    let (mut small, mut large) = (Stores::of(few), Stores::of(many));
    row(
        ("10,000 rows in every table read", "1,000 rows, ours"),
        Some(11.0),
        1,
        || large.read(&many.file).0 > 0,
        || small.read(&few.file).0 > 0,
    )
}

/// The bytes that reading has to copy, copied at once.
fn copying(input: &Input) -> Row {
    let (mut stores, mut copy) = (Stores::of(input), vec![1; input.pool.len()]);
    row(
        ("64 MiB of constants read", "memcpy of the pool"),
        Some(1.25),
        1,
        || stores.read(&input.file).1,
        || {
            copy.copy_from_slice(&input.pool);
            copy.len()
        },
    )
}

pub fn all() -> Vec<Row> {
    let inputs = [
        Named {
            input: inputs::kernel(),
            read: "2 KiB kernel read",
            measured: "2 KiB kernel measured and read",
            written: "2 KiB kernel written",
            goals: (0.2, Some(1.1)),
            calls: 1000,
        },
        Named {
            input: inputs::rows(10_000),
            read: "10,000 rows in every table read",
            measured: "10,000 rows in every table measured and read",
            written: "10,000 rows in every table written",
            goals: (0.2, Some(1.1)),
            calls: 1,
        },
        Named {
            input: inputs::constants(),
            read: "64 MiB of constants read",
            measured: "64 MiB of constants measured and read",
            written: "64 MiB of constants written",
            goals: (1.0, None),
            calls: 1,
        },
    ];
    inputs.iter().for_each(|named| check(&named.input));
    let mut rows: Vec<Row> = inputs.iter().flat_map(reading).collect();
    rows.push(copying(&inputs[2].input));
    rows.push(viewing(&inputs[1].input, 9_999));
    rows.push(growth(&inputs::rows(1_000), &inputs[1].input));
    rows.extend(inputs.iter().map(writing));
    rows
}
