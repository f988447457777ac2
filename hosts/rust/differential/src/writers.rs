//! Every writer against encoding.rs. Outputs have every size from nothing to more than enough, with bytes on both sides
//! that must stay; places lie before, at and past the end.

use boundary::{Answer, ABSENT, FULL};
use oracle::bytecode::encoding::{self, EncodingWriter};
use oracle::ir::{ScalarType, Type};

use crate::tally::{edges, Against, Random, Report, Tally};

const RANDOM_CASES: u64 = 200_000;
const MARGIN: usize = 16;
const LONGEST: usize = 2048;

/// A writer of one number, which stands here as 64 bits of which the call takes its width.
struct Scalar {
    name: &'static str,
    ours: fn(&mut [u8], u64, u64) -> Answer,
    rust: fn(&mut EncodingWriter, u64),
}

const SCALARS: [Scalar; 14] = [
    Scalar {
        name: "write_byte",
        ours: |out, at, v| boundary::write_byte(out, at, v as u8),
        rust: |w, v| w.write_byte(v as u8),
    },
    Scalar { name: "write_varint", ours: boundary::write_varint, rust: |w, v| w.write_varint(v) },
    Scalar {
        name: "write_signed_varint",
        ours: |out, at, v| boundary::write_signed_varint(out, at, v as i64),
        rust: |w, v| w.write_signed_varint(v as i64),
    },
    Scalar {
        name: "write_le_u8",
        ours: |out, at, v| boundary::write_le_u8(out, at, v as u8),
        rust: |w, v| w.write_le_u8(v as u8),
    },
    Scalar {
        name: "write_le_u16",
        ours: |out, at, v| boundary::write_le_u16(out, at, v as u16),
        rust: |w, v| w.write_le_u16(v as u16),
    },
    Scalar {
        name: "write_le_u32",
        ours: |out, at, v| boundary::write_le_u32(out, at, v as u32),
        rust: |w, v| w.write_le_u32(v as u32),
    },
    Scalar { name: "write_le_u64", ours: boundary::write_le_u64, rust: |w, v| w.write_le_u64(v) },
    Scalar {
        name: "write_le_i32",
        ours: |out, at, v| boundary::write_le_i32(out, at, v as i32),
        rust: |w, v| w.write_le_i32(v as i32),
    },
    Scalar {
        name: "write_le_i64",
        ours: |out, at, v| boundary::write_le_i64(out, at, v as i64),
        rust: |w, v| w.write_le_i64(v as i64),
    },
    Scalar {
        name: "write_le_f32",
        ours: |out, at, v| boundary::write_le_f32(out, at, v as u32),
        rust: |w, v| w.write_le_f32(f32::from_bits(v as u32)),
    },
    Scalar { name: "write_le_f64", ours: boundary::write_le_f64, rust: |w, v| w.write_le_f64(f64::from_bits(v)) },
    Scalar {
        name: "write_ap_float_f64",
        ours: boundary::write_ap_float_f64,
        rust: |w, v| w.write_ap_float(f64::from_bits(v), &Type::Scalar(ScalarType::F64)),
    },
    Scalar {
        name: "write_ap_float_f8e4m3fn",
        ours: boundary::write_ap_float_f8e4m3fn,
        rust: |w, v| w.write_ap_float(f64::from_bits(v), &Type::Scalar(ScalarType::F8E4M3FN)),
    },
    Scalar {
        name: "write_ap_float_f8e5m2",
        ours: boundary::write_ap_float_f8e5m2,
        rust: |w, v| w.write_ap_float(f64::from_bits(v), &Type::Scalar(ScalarType::F8E5M2)),
    },
];

/// Memory around and in a lent output, as it is and as it ought to be.
struct Memory {
    fresh: Vec<u8>,
    now: Vec<u8>,
    wanted: Vec<u8>,
}

impl Memory {
    fn new() -> Self {
        let fresh: Vec<u8> = (0..LONGEST + 2 * MARGIN).map(|i| (i as u8).wrapping_mul(37) ^ 0x5A).collect();
        Self { now: fresh.clone(), wanted: fresh.clone(), fresh }
    }

    /// Lends `len` bytes to `call`. Gives its answer, and whether that is as wanted and all the memory is too:
    /// `spelling` at its place if there is one, and every other byte as before.
    fn lend(
        &mut self,
        len: usize,
        wanted: Answer,
        spelling: Option<(u64, &[u8])>,
        call: impl FnOnce(&mut [u8]) -> Answer,
    ) -> (Answer, bool) {
        let whole = len + 2 * MARGIN;
        self.now[..whole].copy_from_slice(&self.fresh[..whole]);
        self.wanted[..whole].copy_from_slice(&self.fresh[..whole]);
        if let Some((at, bytes)) = spelling {
            let start = MARGIN + at as usize;
            self.wanted[start..start + bytes.len()].copy_from_slice(bytes);
        }
        let answer = call(&mut self.now[MARGIN..MARGIN + len]);
        (answer, answer == wanted && self.now[..whole] == self.wanted[..whole])
    }
}

/// Whether `size` bytes at `at` lie within `len`, with no sum that could wrap.
fn fits(at: u64, size: usize, len: usize) -> bool {
    at <= len as u64 && size as u64 <= len as u64 - at
}

/// An output's size and a place in it, at its end or past it; now and then far past it.
fn room(random: &mut Random, most: u64) -> (usize, u64) {
    let len = random.below(most + 1);
    let at = match random.below(16) {
        0 => u64::MAX - random.below(16),
        1 => len + 1 + random.below(4),
        2 => len,
        _ => random.below(len + 1),
    };
    (len as usize, at)
}

/// Compares one call that writes `spelling` at `at` and answers the next place.
fn spelled(
    tally: &mut Tally,
    memory: &mut Memory,
    spelling: &[u8],
    (len, at): (usize, u64),
    value: u64,
    call: impl FnOnce(&mut [u8]) -> Answer,
) {
    let (wanted, bytes) = if fits(at, spelling.len(), len) {
        (Answer::accepted(at + spelling.len() as u64, 0), Some((at, spelling)))
    } else {
        (Answer::refused(FULL), None)
    };
    let (ours, equal) = memory.lend(len, wanted, bytes, call);
    tally.case(equal, [value, len as u64, at], || {
        format!("{value:#x} at {at} of an output of {len} bytes: {ours:?}, and encoding.rs writes {spelling:02X?}")
    });
}

fn scalar(scalar: &Scalar, random: &mut Random, cases: u64) -> Tally {
    let mut tally = Tally::new(scalar.name, Against::Rust);
    let mut memory = Memory::new();
    let mut writer = EncodingWriter::with_capacity(64);
    let mut compare = |value: u64, place: (usize, u64)| {
        writer.buf_mut().clear();
        (scalar.rust)(&mut writer, value);
        spelled(&mut tally, &mut memory, writer.as_bytes(), place, value, |out| (scalar.ours)(out, place.1, value));
    };
    for value in edges() {
        for len in 0..=13 {
            for at in [0, 1, 3, len as u64, len as u64 + 1, u64::MAX] {
                compare(value, (len, at));
            }
        }
    }
    for _ in 0..cases {
        let place = room(random, 24);
        compare(random.number(), place);
    }
    tally
}

/// A writer of a slice. `element` makes one from 64 bits.
fn slices<T: Copy>(
    name: &'static str,
    random: &mut Random,
    cases: u64,
    element: fn(u64) -> T,
    ours: fn(&mut [u8], u64, &[T]) -> Answer,
    rust: fn(&mut EncodingWriter, &[T]),
) -> Tally {
    let mut tally = Tally::new(name, Against::Rust);
    let mut memory = Memory::new();
    let mut writer = EncodingWriter::with_capacity(LONGEST);
    let mut compare = |values: &[T], place: (usize, u64)| {
        writer.buf_mut().clear();
        rust(&mut writer, values);
        let count = values.len() as u64;
        spelled(&mut tally, &mut memory, writer.as_bytes(), place, count, |out| ours(out, place.1, values));
    };
    let edge_values: Vec<T> = edges().into_iter().map(element).collect();
    for count in [0, 1, 2, 3, 5, 126, 127, 128, 129, 200] {
        let enough = count * size_of::<T>() + 4;
        for len in (0..=enough).step_by(if count < 10 { 1 } else { 7 }).chain(enough.saturating_sub(6)..=enough) {
            for at in [0, 2, len as u64, len as u64 + 1, u64::MAX] {
                compare(&edge_values[..count], (len, at));
            }
        }
    }
    for _ in 0..cases {
        let count = if random.one_in(64) { 120 + random.below(16) } else { random.below(7) };
        let values: Vec<T> = (0..count).map(|_| element(random.number())).collect();
        let place = room(random, count * size_of::<T>() as u64 + 6);
        compare(&values, place);
    }
    tally
}

/// What `align_to` leaves in encoding.rs: the padding and the required alignment; `None` where the padding is longer
/// than any output here, so that the Rust would only fill memory.
fn rust_align_to(at: u64, required_alignment: u64, alignment: u64) -> Option<(Vec<u8>, u64)> {
    let long = alignment >= 2 && (alignment - at % alignment) % alignment > LONGEST as u64;
    if long {
        return None;
    }
    let mut writer = EncodingWriter::new();
    writer.align_to(required_alignment);
    writer.buf_mut().resize(at as usize, 0);
    writer.align_to(alignment);
    Some((writer.as_bytes()[at as usize..].to_vec(), writer.required_alignment()))
}

fn align_to(random: &mut Random, cases: u64) -> Tally {
    let mut tally = Tally::new("align_to", Against::Rust);
    let mut memory = Memory::new();
    let mut compare = |required: u64, alignment: u64, (len, at): (usize, u64)| {
        let reached = if at <= len as u64 { rust_align_to(at, required, alignment) } else { None };
        let (wanted, bytes) = match &reached {
            Some((padding, now)) if fits(at, padding.len(), len) => {
                (Answer::accepted(at + padding.len() as u64, *now), Some((at, padding.as_slice())))
            }
            _ => (Answer::refused(FULL), None),
        };
        let (ours, equal) = memory.lend(len, wanted, bytes, |out| boundary::align_to(out, at, required, alignment));
        let against = if reached.is_some() { Against::Rust } else { Against::Known };
        tally.case_against(against, equal, [alignment, at, len as u64], || {
            format!("to {alignment} at {at} of an output of {len} bytes, {required} before: {ours:?}, not {wanted:?}")
        });
    };
    for alignment in (0..=20).chain([63, 64, 65, 1000, 1 << 32, 1 << 63, u64::MAX - 1, u64::MAX]) {
        for len in 0..=40 {
            for at in (0..=len as u64 + 1).chain([u64::MAX]) {
                compare(1 << (at % 8), alignment, (len, at));
            }
        }
    }
    for _ in 0..cases {
        let place = room(random, 80);
        let alignment = if random.one_in(8) { random.number() } else { random.below(70) };
        let required = 1 + random.below(100);
        compare(required, alignment, place);
    }
    tally
}

/// A patch of `width` bytes. Outside the buffer encoding.rs panics, so there the refusal is all that is wanted.
fn patch(
    name: &'static str,
    width: usize,
    (random, cases): (&mut Random, u64),
    call: fn(&mut [u8], u64, u64) -> Answer,
    rust: fn(&mut [u8], usize, u64),
) -> Tally {
    let mut tally = Tally::new(name, Against::Rust);
    let mut memory = Memory::new();
    let mut compare = |value: u64, (len, offset): (usize, u64)| {
        let inside = fits(offset, width, len);
        let mut patched = vec![0; len];
        if inside {
            rust(&mut patched, offset as usize, value);
        }
        let (wanted, bytes) = if inside {
            (Answer::accepted(offset + width as u64, 0), Some((offset, &patched[offset as usize..][..width])))
        } else {
            (Answer::refused(ABSENT), None)
        };
        let (ours, equal) = memory.lend(len, wanted, bytes, |buf| call(buf, offset, value));
        let against = if inside { Against::Rust } else { Against::Known };
        tally.case_against(against, equal, [len as u64, offset, value], || {
            format!("{value:#x} at {offset} of a buffer of {len} bytes: {ours:?}, not {wanted:?}")
        });
    };
    for value in edges() {
        for len in 0..=width * 2 + 1 {
            for offset in (0..=len as u64 + 1).chain([u64::MAX - 3, u64::MAX]) {
                compare(value, (len, offset));
            }
        }
    }
    for _ in 0..cases {
        let place = room(random, 40);
        compare(random.word(), place);
    }
    tally
}

pub fn compare(random: &mut Random, report: &mut Report) {
    println!("writers:");
    let cases = report.share_of(RANDOM_CASES);
    for each in &SCALARS {
        report.add(scalar(each, random, cases));
    }
    report.add(slices("write_bytes", random, cases, |v| v as u8, boundary::write_bytes, |w, v| w.write_bytes(v)));
    report.add(slices(
        "write_le_var_size_i32",
        random,
        cases,
        |v| v as i32,
        boundary::write_le_var_size_i32,
        |w, v| w.write_le_var_size_i32(v),
    ));
    report.add(slices(
        "write_le_var_size_i64",
        random,
        cases,
        |v| v as i64,
        boundary::write_le_var_size_i64,
        |w, v| w.write_le_var_size_i64(v),
    ));
    report.add(align_to(random, cases));
    report.add(patch(
        "patch_u32",
        4,
        (random, cases),
        |buf, offset, v| boundary::patch_u32(buf, offset, v as u32),
        |buf, offset, v| encoding::patch_u32(buf, offset, v as u32),
    ));
    report.add(patch("patch_u64", 8, (random, cases), boundary::patch_u64, encoding::patch_u64));
}
