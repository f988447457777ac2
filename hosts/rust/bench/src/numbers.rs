//! Numbers one by one, arrays and padding. Each case does the same work on both sides and leaves a number that tells
//! them apart if it is not.

use boundary::Answer;
use oracle::bytecode::decoder::window::Reader;
use oracle::bytecode::encoding::EncodingWriter;
use oracle::ir::{ScalarType, Type};

use crate::timing::{row, Row};

const NUMBERS: usize = 1 << 14;
const LENGTH: usize = 1000;
const ARRAYS: usize = 32;

/// SplitMix64 from a fixed seed.
pub fn words(count: usize) -> Vec<u64> {
    let mut state = 0x5449_4B4F_4D55_4349u64;
    let mut word = move || {
        state = state.wrapping_add(0x9E37_79B9_7F4A_7C15);
        let z = (state ^ (state >> 30)).wrapping_mul(0xBF58_476D_1CE4_E5B9);
        let z = (z ^ (z >> 27)).wrapping_mul(0x94D0_49BB_1331_11EB);
        z ^ (z >> 31)
    };
    (0..count).map(|_| word()).collect()
}

/// The last bytes written and where they end.
fn trace(written: &[u8]) -> u64 {
    let tail = written.iter().rev().take(4).fold(0, |word, &byte| word << 8 | u64::from(byte));
    tail << 32 | written.len() as u64
}

const INLINED: &str = "inlined";
const CALLED: &str = "called";

/// encoding.rs and decoder.rs behind a call with the answer that the archive's calls have.
mod called {
    use super::{Answer, EncodingWriter, Reader};

    #[inline(never)]
    pub extern "C" fn write_varint(writer: &mut EncodingWriter, value: u64) -> Answer {
        writer.write_varint(value);
        Answer::accepted(writer.tell() as u64, 0)
    }

    #[inline(never)]
    pub extern "C" fn read_varint(data: &&[u8], at: u64) -> Answer {
        let mut reader = Reader::at(data, at as usize);
        match reader.read_varint() {
            Ok(value) => Answer::accepted(value, reader.pos() as u64),
            Err(_) => Answer::refused(boundary::SHORT),
        }
    }
}

/// Times writing: `ours` writes all into an output and gives the end, `rust` into an emptied writer.
fn writing(
    what: (&'static str, &'static str),
    goal: Option<f64>,
    calls: usize,
    capacity: usize,
    ours: impl Fn(&mut [u8]) -> u64,
    rust: impl Fn(&mut EncodingWriter),
) -> Row {
    let mut out = vec![0xFF; capacity];
    let mut writer = EncodingWriter::with_capacity(capacity);
    writer.buf_mut().resize(capacity, 0xFF);
    row(
        what,
        goal,
        calls,
        || {
            let end = ours(&mut out);
            trace(&out[..end as usize])
        },
        || {
            writer.buf_mut().clear();
            rust(&mut writer);
            trace(writer.as_bytes())
        },
    )
}

fn write_varints(what: &'static str, values: &[u64]) -> [Row; 2] {
    let ours = |out: &mut [u8]| values.iter().fold(0, |at, &value| boundary::write_varint(out, at, value).first);
    let called = |writer: &mut EncodingWriter| {
        let refusals = values.iter().map(|&value| called::write_varint(writer, value).refusal).sum::<u64>();
        assert_eq!(refusals, 0, "encoding.rs refuses nothing");
    };
    let inlined = |writer: &mut EncodingWriter| values.iter().for_each(|&value| writer.write_varint(value));
    let (calls, capacity) = (values.len(), values.len() * 10);
    [
        writing((what, CALLED), Some(1.0), calls, capacity, ours, called),
        writing((what, INLINED), None, calls, capacity, ours, inlined),
    ]
}

/// Reads one number behind the other, and adds them up.
fn sum_of(count: usize, read: impl Fn(u64) -> Answer) -> u64 {
    let (mut at, mut sum) = (0, 0u64);
    for _ in 0..count {
        let answer = read(at);
        sum = sum.wrapping_add(answer.first).wrapping_add(answer.refusal);
        at = answer.second;
    }
    sum
}

fn read_varints(what: &'static str, values: &[u64]) -> [Row; 2] {
    let mut writer = EncodingWriter::new();
    values.iter().for_each(|&value| writer.write_varint(value));
    let (data, calls) = (writer.into_bytes(), values.len());
    let ours = || sum_of(calls, |at| boundary::read_varint(&data, at));
    let called = || sum_of(calls, |at| called::read_varint(&&data[..], at));
    let inlined = || {
        let mut reader = Reader::at(&data, 0);
        (0..calls).fold(0, |sum: u64, _| sum.wrapping_add(reader.read_varint().unwrap_or(u64::MAX)))
    };
    [row((what, CALLED), Some(1.0), calls, ours, called), row((what, INLINED), None, calls, ours, inlined)]
}

pub fn varints() -> Vec<Row> {
    let one_byte: Vec<u64> = words(NUMBERS).into_iter().map(|word| word % 128).collect();
    let any: Vec<u64> = words(NUMBERS).into_iter().map(|word| (word | 1 << 63) >> (word % 64)).collect();
    let longest: Vec<u64> = words(NUMBERS).into_iter().map(|word| word | 1 << 63).collect();
    [
        write_varints("varint encode, one byte", &one_byte),
        write_varints("varint encode, 1 to 10 bytes", &any),
        write_varints("varint encode, ten bytes", &longest),
        read_varints("varint decode, one byte", &one_byte),
        read_varints("varint decode, 1 to 10 bytes", &any),
        read_varints("varint decode, ten bytes", &longest),
    ]
    .concat()
}

pub fn arrays() -> Vec<Row> {
    let narrow: Vec<i32> = words(LENGTH).into_iter().map(|word| word as i32).collect();
    let wide: Vec<i64> = words(LENGTH).into_iter().map(|word| word as i64).collect();
    let capacity = ARRAYS * (8 * LENGTH + 10);
    let write_narrow = writing(
        ("i32 array written", INLINED),
        Some(1.1),
        ARRAYS,
        capacity,
        |out| (0..ARRAYS).fold(0, |at, _| boundary::write_le_var_size_i32(out, at, &narrow).first),
        |writer| (0..ARRAYS).for_each(|_| writer.write_le_var_size_i32(&narrow)),
    );
    let write_wide = writing(
        ("i64 array written", INLINED),
        Some(1.1),
        ARRAYS,
        capacity,
        |out| (0..ARRAYS).fold(0, |at, _| boundary::write_le_var_size_i64(out, at, &wide).first),
        |writer| (0..ARRAYS).for_each(|_| writer.write_le_var_size_i64(&wide)),
    );
    let read_narrow = read_array(
        "i32 array read",
        |writer| writer.write_le_var_size_i32(&narrow),
        boundary::read_le_var_size_i32,
        i32::from_le_bytes,
        |reader, numbers| reader.read_le_var_size_i32(numbers),
    );
    let read_wide = read_array(
        "i64 array read",
        |writer| writer.write_le_var_size_i64(&wide),
        boundary::read_le_var_size_i64,
        i64::from_le_bytes,
        |reader, numbers| reader.read_le_var_size_i64(numbers),
    );
    vec![write_narrow, write_wide, read_narrow, read_wide]
}

/// The library answers where the numbers are, and the host takes them out of their `WIDTH` bytes each.
fn read_array<const WIDTH: usize, T: Copy + PartialEq>(
    what: &'static str,
    write: impl Fn(&mut EncodingWriter),
    ours: impl Fn(&[u8], u64) -> Answer,
    number: impl Fn([u8; WIDTH]) -> T,
    rust: impl Fn(&mut Reader, &mut Vec<T>) -> oracle::Result<u64>,
) -> Row {
    let mut writer = EncodingWriter::new();
    (0..ARRAYS).for_each(|_| write(&mut writer));
    let data = writer.into_bytes();
    let (mut our_numbers, mut rust_numbers) = (Vec::with_capacity(LENGTH), Vec::with_capacity(LENGTH));
    let measured = row(
        (what, INLINED),
        Some(1.1),
        ARRAYS,
        || {
            (0..ARRAYS).fold(0, |at, _| {
                let answer = ours(&data, at);
                let start = answer.second - answer.first * WIDTH as u64;
                let bytes = &data[start as usize..answer.second as usize];
                our_numbers.clear();
                our_numbers
                    .extend(bytes.chunks_exact(WIDTH).map(|chunk| number(chunk.try_into().expect("WIDTH bytes"))));
                answer.second
            })
        },
        || {
            let mut reader = Reader::at(&data, 0);
            for _ in 0..ARRAYS {
                rust_numbers.clear();
                rust(&mut reader, &mut rust_numbers).expect("the array is whole");
            }
            reader.pos() as u64
        },
    );
    assert!(our_numbers == rust_numbers, "{what}: the two sides read other numbers");
    measured
}

/// A byte and then padding to 16, over and over: fifteen bytes of padding each time.
pub fn padding() -> Vec<Row> {
    let ours = |out: &mut [u8]| {
        (0..NUMBERS).fold(0, |at, _| {
            let byte = boundary::write_byte(out, at, 1);
            boundary::align_to(out, byte.first, 1, 16).first
        })
    };
    let rust = |writer: &mut EncodingWriter| {
        (0..NUMBERS).for_each(|_| {
            writer.write_byte(1);
            writer.align_to(16);
        });
    };
    let write = writing(("a byte and 15 of padding written", INLINED), None, NUMBERS, 16 * NUMBERS, ours, rust);
    vec![write, skip_padding()]
}

fn skip_padding() -> Row {
    let mut writer = EncodingWriter::new();
    (0..NUMBERS).for_each(|_| {
        writer.write_byte(1);
        writer.align_to(16);
    });
    let data = writer.into_bytes();
    let ours = || {
        (0..NUMBERS).fold(0, |at, _| {
            let byte = boundary::read_byte(&data, at);
            boundary::skip_padding(&data, byte.second, 16).second
        })
    };
    let rust = || {
        let mut reader = Reader::at(&data, 0);
        for _ in 0..NUMBERS {
            reader.read_byte().expect("a byte is there");
            reader.skip_padding(16).expect("the padding is right");
        }
        reader.pos() as u64
    };
    row(("a byte and 15 of padding read", INLINED), None, NUMBERS, ours, rust)
}

/// Values in the formats' ranges, one byte written for each.
pub fn floats() -> Vec<Row> {
    let in_range = |word: u64| (word & !(0x7FF << 52)) | ((1023 - 12 + word % 21) << 52);
    let bits: Vec<u64> = words(NUMBERS).into_iter().map(in_range).collect();
    vec![
        write_floats("E4M3FN written", ScalarType::F8E4M3FN, &bits, boundary::write_ap_float_f8e4m3fn),
        write_floats("E5M2 written", ScalarType::F8E5M2, &bits, boundary::write_ap_float_f8e5m2),
    ]
}

fn write_floats(
    what: &'static str,
    scalar: ScalarType,
    bits: &[u64],
    write: impl Fn(&mut [u8], u64, u64) -> Answer,
) -> Row {
    let ours = |out: &mut [u8]| bits.iter().fold(0, |at, &b| write(out, at, b).first);
    let kind = Type::Scalar(scalar);
    let rust = |writer: &mut EncodingWriter| bits.iter().for_each(|&b| writer.write_ap_float(f64::from_bits(b), &kind));
    writing((what, INLINED), Some(1.0), bits.len(), bits.len(), ours, rust)
}
