//! Counts of varints beside counts by hand.

use tallied::tally::{self, Lengths};

/// The varints of a file that is accepted.
fn lengths(file: &[u8]) -> Lengths {
    tally::take();
    tallied::read(file).expect("the file is accepted");
    tally::take()
}

/// Document 01's whole case: the section's length 0F, its alignment 04 and the count 02.
#[test]
fn the_whole_case() {
    let file = b"\x7FTileIR\0\x0D\x01\0\0\x81\x0F\x04\xCB\x02\xCB\xCB\xCB\0\0\0\0\x01\0\0\0abc\0";
    assert_eq!(lengths(file), [3, 0, 0, 0, 0, 0, 0, 0, 0, 0]);
}

/// The section's length 93 00, in a longer spelling, and the count 01; then the name 00, the type AC 02, the constant
/// 80 80 04, an alignment of ten bytes and the constant flag 01. The visibility 85 is no varint.
#[test]
fn varints_of_other_lengths() {
    let global = b"\x01\0\xAC\x02\x80\x80\x04\x80\x80\x80\x80\x80\x80\x80\x80\x80\x01\x85\x01";
    let file = [&b"\x7FTileIR\0\x0D\x03\0\0\x06\x93\0"[..], global, b"\0"].concat();
    assert_eq!(global.len(), 0x13);
    assert_eq!(lengths(&file), [3, 2, 1, 0, 0, 0, 0, 0, 0, 1]);
}
