//! Indices, a million in one function type: its file measured and read beside the plain reader, and beside the plain
//! loop over the indices alone, and written beside the plain writer.

use std::hint::black_box;

use crate::files::{plain_sizes, PLAIN};
use crate::inputs::{self, Input};
use crate::stores::Stores;
use crate::timing::{row, Row};

const LOOP: &str = "plain loop";
const COUNT: usize = 1_000_000;

/// What is said of a file, and what its times have to reach.
struct Named {
    input: Input,
    /// How many bytes an index has.
    width: usize,
    read: &'static str,
    written: &'static str,
    /// At most so much of the plain reader's time, and of the plain loop's.
    goal: Option<f64>,
}

/// The bytes of the indices, `width` for each, which are the file's last but for the count of no results and the end
/// marker.
fn wire(file: &[u8], width: usize) -> &[u8] {
    &file[..file.len() - 2][file.len() - 2 - COUNT * width..]
}

/// The indices of a sheet, which are its last words but for the count of no results.
fn indices(sheet: &[u8]) -> &[u8] {
    &sheet[..sheet.len() - 8][sheet.len() - 8 - COUNT * 8..]
}

/// The plain loop over the indices. Nothing else is there to be read, and room was made.
fn plain_loop(wire: &[u8], numbers: &mut Vec<u64>) {
    numbers.clear();
    plain::varints(wire, COUNT as u64, numbers).expect("an index of the bench is accepted");
}

/// All sides read what was written, before it counts how fast that was.
fn check(Named { input, width, .. }: &Named) {
    let mut stores = Stores::of(input);
    stores.measure_and_read(&input.file);
    assert!(stores.sheet == input.sheet && stores.pool == input.pool, "the tables are others");
    let mut numbers = Vec::new();
    plain_loop(wire(&input.file, *width), &mut numbers);
    let numbers: Vec<u8> = numbers.into_iter().flat_map(u64::to_le_bytes).collect();
    assert!(numbers == indices(&input.sheet), "the indices are others");
    assert_eq!(plain::write(&input.sheet, &input.pool).as_deref(), Ok(&input.file[..]));
}

fn reading(Named { input, width, read, goal, .. }: &Named) -> [Row; 2] {
    let (mut stores, mut numbers) = (Stores::of(input), vec![1; COUNT]);
    let (file, wire) = (&input.file[..], wire(&input.file, *width));
    let beside_reader = row((*read, PLAIN), *goal, COUNT, || stores.measure_and_read(file), || plain_sizes(file));
    let beside_loop = row(
        (*read, LOOP),
        *goal,
        COUNT,
        || {
            stores.measure_and_read(file);
            indices(&stores.sheet).last_chunk().map(|&last| u64::from_le_bytes(last))
        },
        || {
            plain_loop(wire, black_box(&mut numbers));
            numbers.last().copied()
        },
    );
    [beside_reader, beside_loop]
}

fn writing(Named { input: Input { sheet, pool, file }, written, .. }: &Named) -> Row {
    let mut out = vec![1; file.len()];
    row(
        (*written, PLAIN),
        None,
        COUNT,
        || boundary::write(sheet, pool, &mut out).first as usize,
        || plain::write(sheet, pool).map_or(0, |file| file.len()),
    )
}

pub fn all() -> Vec<Row> {
    let inputs = [
        Named {
            input: inputs::function(0, COUNT as u64),
            width: 1,
            read: "a one-byte index of a function type measured and read",
            written: "a one-byte index of a function type written",
            goal: Some(0.9),
        },
        Named {
            input: inputs::function(128, COUNT as u64),
            width: 2,
            read: "a two-byte index of a function type measured and read",
            written: "a two-byte index of a function type written",
            goal: Some(1.1),
        },
    ];
    inputs.iter().for_each(check);
    inputs.iter().flat_map(reading).chain(inputs.iter().map(writing)).collect()
}
