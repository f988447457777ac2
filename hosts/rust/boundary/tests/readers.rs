//! The readers against the plain rules, and against the writers. These tests need no Rust source beside the repository.

mod plain;

use boundary::{Answer, OVERLONG, PADDING, SHORT};
use plain::answer;

type Call = fn(&[u8], u64) -> Answer;
type Rule = fn(&[u8], u64) -> plain::Read;

/// Every call that reads one value, beside its plain rule.
const READERS: [(Call, Rule); 11] = [
    (boundary::read_byte, |data, at| plain::le(data, at, 1)),
    (boundary::read_varint, plain::varint),
    (boundary::read_signed_varint, plain::signed_varint),
    (boundary::read_le_u8, |data, at| plain::le(data, at, 1)),
    (boundary::read_le_u16, |data, at| plain::le(data, at, 2)),
    (boundary::read_le_u32, |data, at| plain::le(data, at, 4)),
    (boundary::read_le_u64, |data, at| plain::le(data, at, 8)),
    (boundary::read_le_i32, |data, at| plain::le(data, at, 4)),
    (boundary::read_le_i64, |data, at| plain::le(data, at, 8)),
    (boundary::read_le_var_size_i32, |data, at| plain::counted(data, at, 4)),
    (boundary::read_le_var_size_i64, |data, at| plain::counted(data, at, 8)),
];

fn each_reader_agrees(data: &[u8]) {
    for (call, rule) in READERS {
        for at in (0..=data.len() as u64 + 1).chain([u64::MAX - 7, u64::MAX]) {
            assert_eq!(call(data, at), answer(rule(data, at)), "{data:02X?} at {at}");
        }
    }
}

#[test]
fn all_strings_of_up_to_two_bytes() {
    each_reader_agrees(&[]);
    for a in 0..=255 {
        each_reader_agrees(&[a]);
        for b in 0..=255 {
            each_reader_agrees(&[a, b]);
        }
    }
}

#[test]
fn varints_of_every_length_and_last_byte() {
    for head in [0x80, 0x81, 0xFF] {
        for count in 0..12 {
            for last in 0..=255 {
                let mut data = vec![head; count];
                data.push(last);
                each_reader_agrees(&data);
            }
        }
    }
}

#[test]
fn arrays_cut_at_every_byte() {
    for count in 0..=4 {
        let data: Vec<u8> = [count].into_iter().chain(1..=8 * count).collect();
        for len in 0..=data.len() {
            each_reader_agrees(&data[..len]);
        }
    }
}

#[test]
fn padding_at_every_place() {
    for alignment in (0..20).chain([64, 1 << 40, u64::MAX]) {
        for len in 0..24 {
            for wrong in 0..=len {
                let mut data = vec![0xCB; len];
                data.iter_mut().skip(wrong).take(1).for_each(|byte| *byte = 0);
                for at in (0..=len as u64 + 20).chain([u64::MAX]) {
                    let wanted = answer(plain::padding(&data, at, alignment));
                    assert_eq!(
                        boundary::skip_padding(&data, at, alignment),
                        wanted,
                        "{data:02X?} at {at}, {alignment}"
                    );
                }
            }
        }
    }
}

#[test]
fn runs_of_bytes_and_what_remains() {
    let data = [7; 12];
    for at in (0..15).chain([u64::MAX]) {
        assert_eq!(boundary::remaining(&data, at), 12u64.saturating_sub(at));
        for n in (0..15).chain([u64::MAX - at, u64::MAX]) {
            let wanted = plain::bytes(&data, at, n).map(|run| (at, at + run.len() as u64));
            assert_eq!(boundary::read_bytes(&data, at, n), answer(wanted), "{n} bytes at {at}");
        }
    }
}

#[test]
fn refusals_by_name() {
    assert_eq!(boundary::read_varint(&[0x80], 0), Answer::refused(SHORT));
    assert_eq!(boundary::read_varint(&[0xFF; 10], 0), Answer::refused(OVERLONG));
    assert_eq!(boundary::skip_padding(&[0xCB, 0xCA], 0, 4), Answer::accepted(0, 0));
    assert_eq!(boundary::skip_padding(&[0xCB, 0xCA], 1, 4), Answer::refused(PADDING));
    assert_eq!(boundary::skip_padding(&[0xCB, 0xCA], 2, 1), Answer::accepted(0, 2));
    assert_eq!(boundary::skip_padding(&[0xCB, 0xCA], 3, 1), Answer::refused(SHORT));
}

#[test]
fn what_was_written_is_read() {
    for shift in 0..64 {
        for value in [(1u64 << shift) - 1, 1 << shift, (1u64 << shift).wrapping_neg()] {
            let mut out = [0; 10];
            let next = boundary::write_varint(&mut out, 0, value).first;
            assert_eq!(boundary::read_varint(&out, 0), Answer::accepted(value, next));
            let next = boundary::write_signed_varint(&mut out, 0, value as i64).first;
            assert_eq!(boundary::read_signed_varint(&out, 0), Answer::accepted(value, next));
            let next = boundary::write_le_u64(&mut out, 2, value).first;
            assert_eq!(boundary::read_le_u64(&out, 2), Answer::accepted(value, next));
            let next = boundary::write_le_i32(&mut out, 3, value as i32).first;
            assert_eq!(boundary::read_le_i32(&out, 3), Answer::accepted(u64::from(value as u32), next));
        }
    }
}

#[test]
fn an_array_that_was_written_is_read() {
    let values: Vec<i64> = (0..200).map(|i| i * i * i * 1_000_003 - 77).collect();
    let mut out = vec![0; 1700];
    let next = boundary::write_le_var_size_i64(&mut out, 5, &values).first;
    assert_eq!(boundary::read_le_var_size_i64(&out, 5), Answer::accepted(200, next));
    let numbers = &out[next as usize - 1600..next as usize];
    let read: Vec<i64> = numbers.chunks_exact(8).map(|eight| i64::from_le_bytes(eight.try_into().unwrap())).collect();
    assert_eq!(read, values);
}
