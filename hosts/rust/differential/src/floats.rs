//! The 8-bit floats against encoding.rs: every code's exact value, every midpoint between two codes, the neighbours of
//! both, the specials, and random bits of which most lie in the formats' ranges.

use oracle::bytecode::encoding::EncodingWriter;
use oracle::ir::{ScalarType, Type};

use crate::tally::{Against, Random, Report, Tally};

const RANDOM_CASES: u64 = 5_000_000;
const SIGN: u64 = 1 << 63;
const INFINITY: u64 = 0x7FF << 52;

struct Format {
    name: &'static str,
    scalar: ScalarType,
    ours: fn(u64) -> u8,
    mantissa_bits: u32,
    bias: i32,
    /// The largest code of a finite magnitude.
    largest: u8,
}

const FORMATS: [Format; 2] = [
    Format {
        name: "f8e4m3fn",
        scalar: ScalarType::F8E4M3FN,
        ours: boundary::f8e4m3fn,
        mantissa_bits: 3,
        bias: 7,
        largest: 0x7E,
    },
    Format {
        name: "f8e5m2",
        scalar: ScalarType::F8E5M2,
        ours: boundary::f8e5m2,
        mantissa_bits: 2,
        bias: 15,
        largest: 0x7B,
    },
];

impl Format {
    /// The magnitude of a code, which an f64 holds exactly. The two codes after the largest are read as if the format
    /// went on, so that the place where overflow begins is a midpoint too.
    fn magnitude(&self, code: u8) -> f64 {
        let mantissa = code & ((1 << self.mantissa_bits) - 1);
        let exponent = i32::from(code >> self.mantissa_bits);
        let step = 2f64.powi(exponent.max(1) - self.bias - self.mantissa_bits as i32);
        let hidden = if exponent == 0 { 0 } else { 1 << self.mantissa_bits };
        f64::from(hidden + mantissa) * step
    }

    /// Bits at which the answer may change, without their signs.
    fn chosen(&self) -> Vec<u64> {
        let mut points = Vec::new();
        for code in 0..=self.largest + 1 {
            let (here, next) = (self.magnitude(code), self.magnitude(code + 1));
            points.extend([here, (here + next) / 2.0]);
        }
        let mut bits: Vec<u64> = points.iter().flat_map(|p| around(p.to_bits())).collect();
        bits.extend((0..52).flat_map(|shift| around(1 << shift)));
        bits.extend((0..2047).flat_map(|exponent| around(exponent << 52)));
        bits.extend([INFINITY, INFINITY - 1]);
        bits.extend((0..52).flat_map(|shift| [INFINITY | 1 << shift, INFINITY | ((1 << 52) - 1) >> shift]));
        bits
    }
}

/// A number, the ones beside it, and one further.
fn around(bits: u64) -> [u64; 5] {
    [bits.saturating_sub(2), bits.saturating_sub(1), bits, bits + 1, bits + 2]
}

/// Random bits: most with an exponent near the formats' ranges, many with a mantissa near a tie.
fn random_bits(random: &mut Random) -> u64 {
    let word = random.word();
    if random.one_in(8) {
        return word;
    }
    let exponent = 1023 - 30 + random.below(50);
    let mantissa = word >> 12;
    let shaped = match random.below(4) {
        0 => mantissa & !((1 << (44 + random.below(8))) - 1),
        1 => (mantissa & !((1 << 46) - 1)).wrapping_add(random.below(5)).wrapping_sub(2) & ((1 << 52) - 1),
        _ => mantissa,
    };
    (word & SIGN) | exponent << 52 | shaped
}

fn format(format: &Format, random: &mut Random, cases: u64) -> Tally {
    let mut tally = Tally::new(format.name, Against::Rust);
    let mut writer = EncodingWriter::with_capacity(16);
    let scalar = Type::Scalar(format.scalar);
    let mut compare = |bits: u64| {
        writer.buf_mut().clear();
        writer.write_ap_float(f64::from_bits(bits), &scalar);
        let rust = writer.as_bytes();
        let ours = (format.ours)(bits);
        tally.case(rust == [ours], [bits & !SIGN, bits >> 63, 0], || {
            format!("{bits:#018x} ({:e}) gives {ours:02X}, and encoding.rs writes {rust:02X?}", f64::from_bits(bits))
        });
    };
    for bits in format.chosen() {
        compare(bits);
        compare(bits | SIGN);
    }
    for _ in 0..cases {
        compare(random_bits(random));
    }
    own_values(format, &mut tally);
    tally
}

/// Every finite code's exact value is converted to that code.
fn own_values(format: &Format, tally: &mut Tally) {
    for code in 0..=format.largest {
        for sign in [0, 0x80] {
            let bits = format.magnitude(code).to_bits() | u64::from(sign) << 56;
            let ours = (format.ours)(bits);
            tally.case_against(Against::Known, ours == code | sign, [bits & !SIGN, bits >> 63, 0], || {
                format!("the value of code {:02X} gives {ours:02X}", code | sign)
            });
        }
    }
}

pub fn compare(random: &mut Random, report: &mut Report) {
    println!("8-bit floats:");
    for each in &FORMATS {
        let cases = report.share_of(RANDOM_CASES);
        report.add(format(each, random, cases));
    }
}
