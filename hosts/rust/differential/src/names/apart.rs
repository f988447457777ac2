//! Names that are long, deep or wide, and a sheet over the limit that only writing has.

use super::made::of_types;
use super::Run;
use crate::tally::{Against, Random};

const F32: u64 = 7;
const POINTER: u64 = 12;
const FUNC: u64 = 16;

/// Outputs into which no name of more than 2^39 bytes goes.
const ROOMS: [usize; 7] = [0, 1, 7, 1000, 1 << 16, 1 << 20, 1 << 24];
/// So many function types make such a name of the last.
const FUNCTIONS: u64 = 13;
const DEPTH: u64 = 10_000;
const INPUTS: usize = 20_000;
/// Behind the contents.
const STRINGS_START: usize = 19;
const MOST_WORDS: usize = 1 << 26;

/// Function types of which the first has no inputs, and each other has eight times the one before.
fn wide(random: &mut Random, run: &mut Run) {
    let function = |i: u64| if i == 0 { vec![FUNC, 0, 0] } else { [&[FUNC, 8][..], &[i - 1; 8], &[0]].concat() };
    let sheet = of_types(&(0..FUNCTIONS).map(function).collect::<Vec<_>>()).sheet();
    for row in 0..FUNCTIONS {
        run.row(random, &sheet, row);
    }
    for room in ROOMS {
        run.call(random, &sheet, FUNCTIONS - 1, room);
        run.known.row(Against::Known, &sheet, FUNCTIONS - 1, room, None);
    }
}

/// Pointers, each to the one before.
fn deep(random: &mut Random, run: &mut Run) {
    let pointer = |i: u64| if i == 0 { vec![F32] } else { vec![POINTER, 0, i - 1, 0] };
    let sheet = of_types(&(0..=DEPTH).map(pointer).collect::<Vec<_>>()).sheet();
    for depth in [1, DEPTH / 2, DEPTH] {
        let name = [&b"ptr<".repeat(depth as usize)[..], b"f32", &b">".repeat(depth as usize)].concat();
        run.known.named(Against::Known, &sheet, depth, &name);
        run.call(random, &sheet, depth, name.len());
    }
}

/// A function with many inputs that are no rows.
fn long(random: &mut Random, run: &mut Run) {
    let sheet = of_types(&[[&[FUNC, INPUTS as u64][..], &[u64::MAX; INPUTS], &[0]].concat()]).sheet();
    let name = format!("({}) -> ()", ["?"; INPUTS].join(", "));
    run.known.named(Against::Known, &sheet, 0, name.as_bytes());
    run.call(random, &sheet, 0, name.len());
}

/// A sheet of so many words: empty strings, and a type behind them. Memory that is never written stays unmapped, so
/// that a large one costs little.
fn of_strings(words: usize) -> Vec<u8> {
    let types = words - 2;
    let strings = (types - STRINGS_START) as u64;
    let (types_start, end) = (types as u64, words as u64);
    let contents = [&[13, 4, 0, 0, 0, 19, strings, types_start, 1][..], &[end, 0].repeat(5)].concat();
    let mut sheet = vec![0; 8 * words];
    for (at, part) in [(0, &contents[..]), (types, &[1, F32])] {
        let bytes: Vec<u8> = part.iter().flat_map(|word| word.to_le_bytes()).collect();
        sheet[8 * at..][..bytes.len()].copy_from_slice(&bytes);
    }
    sheet
}

/// One word more than writing takes. The plain side, which copies all words, is asked of a small one.
fn large(random: &mut Random, run: &mut Run) {
    let (small, large) = (of_strings(100), of_strings(MOST_WORDS + 1));
    run.call(random, &small, 0, 3);
    run.known.named(Against::Known, &small, 0, b"f32");
    run.known.named(Against::Known, &large, 0, b"f32");
}

pub fn compare(random: &mut Random, run: &mut Run) {
    wide(random, run);
    deep(random, run);
    long(random, run);
    large(random, run);
}
