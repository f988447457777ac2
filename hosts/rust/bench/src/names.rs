//! Names of types: every row of a sheet, one call each, beside the plain names of the same sheet in the same buffer.

use std::cell::RefCell;
use std::hint::black_box;

use crate::inputs::{self, Input};
use crate::timing::{row, times, Row};

const PLAIN: &str = "plain Rust";
/// At most so much of the plain time.
const GOAL: Option<f64> = Some(1.1);
/// Longer than every name here.
const ROOM: usize = 256;

/// The length of a row's name, which the library writes.
fn ours(sheet: &[u8], row: u64, out: &mut [u8]) -> u64 {
    let named = boundary::type_text(black_box(sheet), row, out);
    assert_eq!(named.refusal, 0, "a type of the bench has no name");
    named.first
}

/// The same of the plain names.
fn plain(sheet: &[u8], row: u64, out: &mut [u8]) -> u64 {
    plain::type_text(black_box(sheet), row, out).expect("a type of the bench has a name")
}

/// Both sides write the same, before it counts how fast that was.
fn check(Input { sheet, .. }: &Input, types: u64) {
    for row in 0..types {
        let (mut our_out, mut plain_out) = ([1; ROOM], [1; ROOM]);
        assert_eq!(ours(sheet, row, &mut our_out), plain(sheet, row, &mut plain_out));
        assert!(our_out == plain_out, "row {row} has another name");
    }
}

/// So many types, all of them `turns` times.
fn naming(what: &'static str, input: &Input, types: u64, turns: usize) -> Row {
    check(input, types);
    let out = RefCell::new(vec![1; ROOM]);
    let all = |name: fn(&[u8], u64, &mut [u8]) -> u64| {
        (0..types).map(|row| name(&input.sheet, row, &mut out.borrow_mut())).sum::<u64>()
    };
    let calls = turns * types as usize;
    row((what, PLAIN), GOAL, calls, times(turns, || all(ours)), times(turns, || all(plain)))
}

pub fn all() -> Vec<Row> {
    vec![
        naming("each type of the 2 KiB kernel named", &inputs::kernel(), inputs::KERNEL_TYPES, 100),
        naming("each type of 1,000 named", &inputs::types(1_000), 1_000, 1),
    ]
}
