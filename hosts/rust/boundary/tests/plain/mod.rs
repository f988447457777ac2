//! Document 01's rules for reading numbers, said plainly: each gives a value and the next place, or a refusal number.

use boundary::{Answer, OVERLONG, PADDING, SHORT};

pub type Read = Result<(u64, u64), u64>;

pub fn bytes(data: &[u8], at: u64, n: u64) -> Result<&[u8], u64> {
    let left = usize::try_from(at).ok().and_then(|at| data.get(at..)).ok_or(SHORT)?;
    usize::try_from(n).ok().and_then(|n| left.get(..n)).ok_or(SHORT)
}

/// A little-endian number of `width` bytes.
pub fn le(data: &[u8], at: u64, width: u64) -> Read {
    let number = bytes(data, at, width)?.iter().rev().fold(0, |number, &byte| number << 8 | u64::from(byte));
    Ok((number, at + width))
}

pub fn varint(data: &[u8], at: u64) -> Read {
    let mut value = 0;
    for i in 0..10 {
        let byte = bytes(data, at.saturating_add(i), 1)?[0];
        value |= u64::from(byte & 0x7F) << (7 * i);
        if byte < 0x80 {
            return Ok((value, at + i + 1));
        }
    }
    Err(OVERLONG)
}

pub fn signed_varint(data: &[u8], at: u64) -> Read {
    let (zigzag, next) = varint(data, at)?;
    let half = zigzag / 2;
    Ok((if zigzag % 2 == 0 { half } else { !half }, next))
}

/// A counted array of numbers of `width` bytes: its count and the place after it.
pub fn counted(data: &[u8], at: u64, width: u64) -> Read {
    let (count, next) = varint(data, at)?;
    let size = count.checked_mul(width).ok_or(SHORT)?;
    bytes(data, next, size)?;
    Ok((count, next + size))
}

/// Padding to `alignment`: how many bytes it is and the place after it. A place past the data is refused even where
/// nothing is due.
pub fn padding(data: &[u8], at: u64, alignment: u64) -> Read {
    bytes(data, at, 0)?;
    let size = if alignment < 2 { 0 } else { (alignment - at % alignment) % alignment };
    for i in 0..size {
        if bytes(data, at.saturating_add(i), 1)?[0] != 0xCB {
            return Err(PADDING);
        }
    }
    Ok((size, at + size))
}

/// A plain reading in the form of the boundary.
pub fn answer(read: Read) -> Answer {
    read.map_or_else(Answer::refused, |(value, next)| Answer::accepted(value, next))
}
