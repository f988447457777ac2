//! The names of types, of the library and of crate `plain`, against texts that are written out here. No Rust source is
//! needed.

use boundary::{Answer, ABSENT, FULL, SHEET};

const UNTOUCHED: u8 = 0xA5;
const DYNAMIC: u64 = 1 << 63;
/// The bits of -1 and -2.
const MINUS_ONE: u64 = u64::MAX;
const MINUS_TWO_I32: u64 = u32::MAX as u64 - 1;

/// A row of each kind, of ranks 0 to 3, with and without what a flag brings, and rows that name no earlier one.
const EVERY_KIND: [(&[u64], &str); 17] = [
    (&[7], "f32"),
    (&[12, 0, 0, 0], "ptr<f32>"),
    (&[12, 1, 0, 255], "ptr<f32, ptr_attr=255>"),
    (&[12, 2, 3, 0], "ptr<?>"),
    (&[13, 0, 2, 2, 4], "tile<2x4xf32>"),
    (&[13, 0, 0], "tile<f32>"),
    (&[13, 0, 3, DYNAMIC, MINUS_ONE, 0], "tile<-9223372036854775808x-1x0xf32>"),
    (&[14, 0, 0, 2, DYNAMIC, MINUS_ONE, 2, 1, DYNAMIC, 0], "tensor_view<?x-1xf32, strides=[1,?]>"),
    (&[14, 1, 0, 0, 0, 7], "tensor_view<xf32, strides=[], ptr_attr=7>"),
    (&[15, 2, 2, 8, MINUS_TWO_I32, 7, 1, 0, 0], "partition_view<tile=(8x-2), tv=tensor_view<?x-1xf32, strides=[1,?]>>"),
    (&[15, 1, 0, 10, 0, 3], "partition_view<tile=(), tv=?, padding=3>"),
    (&[20, 0, 1, 1 << 31, u64::MAX, 0, 0], "gather_scatter_view<tile=(-2147483648), tv=?, sparse_dim=0>"),
    (
        &[20, 3, 1, 16, 8, u64::MAX, 2],
        "gather_scatter_view<tile=(16), tv=tensor_view<xf32, strides=[], ptr_attr=7>, \
         sparse_dim=18446744073709551615, padding=2>",
    ),
    (
        &[21, 1, 1, 1, 2, 2, 3, 14, 2, 0, MINUS_TWO_I32, 1],
        "strided_view<tile=(1), traversal_strides=[2,3], tv=?, dim_map=[0,-2], padding=1>",
    ),
    (&[16, 0, 0], "() -> ()"),
    (&[16, 3, 0, 15, 14, 1, 4], "(f32, ?, () -> ()) -> (tile<2x4xf32>)"),
    (&[16, 0, 2, u64::MAX, 1], "() -> (?, ptr<f32>)"),
];

/// The tags without fields.
const SCALARS: [(&[u64], &str); 17] = [
    (&[0], "i1"),
    (&[1], "i8"),
    (&[2], "i16"),
    (&[3], "i32"),
    (&[4], "i64"),
    (&[5], "f16"),
    (&[6], "bf16"),
    (&[7], "f32"),
    (&[8], "tf32"),
    (&[9], "f64"),
    (&[10], "f8e4m3fn"),
    (&[11], "f8e5m2"),
    (&[17], "token"),
    (&[18], "f8e8m0fnu"),
    (&[19], "f4e2m1fn"),
    (&[22], "i4"),
    (&[0x82], "f8e5m3fnu"),
];

/// A sheet of version 13.4 that has these types and nothing else.
fn sheet<'r>(types: impl IntoIterator<Item = &'r [u64]>) -> Vec<u8> {
    let (mut rows, mut count) = (Vec::new(), 0);
    for row in types {
        rows.push(row.len() as u64);
        rows.extend_from_slice(row);
        count += 1;
    }
    let mut words = vec![13, 4, 0, 0, 0, 19, 0, 19, count];
    words.extend([19 + rows.len() as u64, 0].repeat(5));
    words.into_iter().chain(rows).flat_map(u64::to_le_bytes).collect()
}

/// The library's answer, which has to be the plain one too, and the output of so many bytes that both leave.
fn named(sheet: &[u8], row: u64, room: usize) -> (Answer, Vec<u8>) {
    let (mut out, mut plain_out) = (vec![UNTOUCHED; room], vec![UNTOUCHED; room]);
    let answer = boundary::type_text(sheet, row, &mut out);
    let plain = plain::type_text(sheet, row, &mut plain_out);
    let refused = |refusal: plain::Refusal| Answer::refused_at(refusal.number, refusal.stage);
    assert_eq!(answer, plain.map_or_else(refused, |size| Answer::accepted(size, 0)), "row {row}, {room} bytes");
    assert!(out == plain_out, "row {row}, {room} bytes");
    (answer, out)
}

/// A call that is refused leaves the output.
fn assert_refused(sheet: &[u8], row: u64, room: usize, number: u64) {
    assert_eq!(named(sheet, row, room), (Answer::refused(number), vec![UNTOUCHED; room]));
}

#[test]
fn every_kind_in_every_room() {
    for rows in [&EVERY_KIND[..], &SCALARS] {
        let sheet = sheet(rows.iter().map(|(row, _)| *row));
        for (i, (_, name)) in rows.iter().enumerate() {
            for room in 0..name.len() {
                assert_refused(&sheet, i as u64, room, FULL);
            }
            for more in 0..3 {
                let (answer, out) = named(&sheet, i as u64, name.len() + more);
                assert_eq!(answer, Answer::accepted(name.len() as u64, 0), "{name}");
                assert_eq!(out, [name.as_bytes(), &vec![UNTOUCHED; more]].concat(), "{name}");
            }
        }
    }
}

/// 12, then 14, then 11.
#[test]
fn the_order_of_refusals() {
    let whole = sheet([&[7][..]]);
    for broken in [&whole[..whole.len() - 8], &whole[1..], &sheet([&[23][..]]), &[]] {
        assert_refused(broken, 1, 0, SHEET);
    }
    for row in [1, 2, u64::MAX] {
        assert_refused(&whole, row, 0, ABSENT);
    }
    assert_refused(&sheet([]), 0, 0, ABSENT);
    assert_refused(&whole, 0, 2, FULL);
}

/// Thirteen function types, each with eight times the one before.
#[test]
fn names_that_no_memory_holds() {
    let function = |i: u64| if i == 0 { vec![16, 0, 0] } else { [&[16, 8][..], &[i - 1; 8], &[0]].concat() };
    let rows: Vec<Vec<u64>> = (0..13).map(function).collect();
    let sheet = sheet(rows.iter().map(Vec::as_slice));
    for room in [0, 1, 1000, 1 << 20] {
        assert_refused(&sheet, 12, room, FULL);
    }
}

/// Pointers, each to the one before.
#[test]
fn names_in_names() {
    /// What the header says of the stack, for an output as long as the name.
    const STACK: usize = 16384 + 480 * (256 + 5 * DEPTH + 3);
    std::thread::Builder::new().stack_size(STACK).spawn(deep_names).unwrap().join().unwrap();
}

const DEPTH: usize = 10_000;

/// Pointers, each to the one before.
fn deep_names() {
    let rows: Vec<[u64; 4]> = (0..DEPTH as u64).map(|i| [12, 0, i, 0]).collect();
    let sheet = sheet([&[7][..]].into_iter().chain(rows.iter().map(|row| &row[..])));
    let name = [&b"ptr<".repeat(DEPTH)[..], b"f32", &b">".repeat(DEPTH)].concat();
    assert_refused(&sheet, DEPTH as u64, name.len() - 1, FULL);
    assert_eq!(named(&sheet, DEPTH as u64, name.len()), (Answer::accepted(name.len() as u64, 0), name));
}
