//! The view of a section on document 01's whole case and on files at the limit. No Rust source is needed.

use boundary::{section, Answer, ABSENT, LIMIT, MAGIC, PADDING, SHORT, STAGE_HEADER, STAGE_LIMITS, STAGE_SECTIONS};

const STRING: u64 = 1;
const MOST_BYTES: usize = 1 << 30;

const WHOLE_CASE: [u8; 32] = *b"\x7FTileIR\0\x0D\x01\0\0\x81\x0F\x04\xCB\x02\xCB\xCB\xCB\0\0\0\0\x01\0\0\0abc\0";

#[test]
fn the_whole_case() {
    assert_eq!(section(&WHOLE_CASE, STRING), Answer::accepted(16, 15));
    for id in (0..200).filter(|&id| id != STRING) {
        assert_eq!(section(&WHOLE_CASE, id), Answer::refused(ABSENT), "section {id}");
    }
}

#[test]
fn the_whole_case_damaged() {
    for (place, byte, wanted) in [
        (0, 0, Answer::refused_at(MAGIC, STAGE_HEADER)),
        (13, 0x10, Answer::refused_at(SHORT, STAGE_SECTIONS)),
        (13, 0x0E, Answer::refused_at(SHORT, STAGE_SECTIONS)),
        (15, 0, Answer::refused_at(PADDING, STAGE_SECTIONS)),
        (12, 0, Answer::refused(ABSENT)),
    ] {
        let mut file = WHOLE_CASE;
        file[place] = byte;
        assert_eq!(section(&file, STRING), wanted, "{byte:02X} at {place}");
    }
}

#[test]
fn of_two_sections_the_last_counts() {
    let file = [&WHOLE_CASE[..12], &[1, 2, 7, 7, 1, 1, 9, 0x80]].concat();
    assert_eq!(section(&file, STRING), Answer::accepted(18, 1));
}

/// The memory of such a file is never touched beyond its first bytes.
#[test]
fn the_limit() {
    let mut file = vec![0; MOST_BYTES + 1];
    file[..32].copy_from_slice(&WHOLE_CASE);
    assert_eq!(section(&file, STRING), Answer::refused_at(LIMIT, STAGE_LIMITS));
    assert_eq!(section(&file[..MOST_BYTES], STRING), Answer::accepted(16, 15));
}
