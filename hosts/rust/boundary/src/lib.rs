//! The calls of include/tikomuci.h, over slices.

mod cache;

pub use cache::{Cache, CACHE, OWNER_BYTES, SESSION};

use std::mem::{align_of, offset_of, size_of};

/// What a call answers, as tikomuci.h says.
#[repr(C)]
#[derive(Debug, Clone, Copy, Default, PartialEq, Eq)]
pub struct Answer {
    pub refusal: u64,
    pub stage: u64,
    pub first: u64,
    pub second: u64,
}

// The layout of `tikomuci_answer`, which tikomuci.h fixes for its own side.
const _: () = {
    assert!(size_of::<Answer>() == 32 && align_of::<Answer>() == 8);
    assert!(offset_of!(Answer, refusal) == 0 && offset_of!(Answer, stage) == 8);
    assert!(offset_of!(Answer, first) == 16 && offset_of!(Answer, second) == 24);
};

impl Answer {
    /// A refusal of a call that reads no container: it stands at stage 10.
    pub const fn refused(refusal: u64) -> Self {
        Self::refused_at(refusal, STAGE_CALL)
    }

    /// A refusal has its number and its stage, and no other data.
    pub const fn refused_at(refusal: u64, stage: u64) -> Self {
        Self { refusal, stage, first: 0, second: 0 }
    }

    pub const fn accepted(first: u64, second: u64) -> Self {
        Self { refusal: 0, stage: 0, first, second }
    }
}

pub const SHORT: u64 = 2;
pub const OVERLONG: u64 = 3;
pub const PADDING: u64 = 5;
pub const FULL: u64 = 11;
pub const SHEET: u64 = 12;
pub const START: u64 = 13;
pub const ABSENT: u64 = 14;
pub const NO_SLOT: u64 = 18;
pub const LIMIT: u64 = 1;
pub const MAGIC: u64 = 4;
pub const STAGE_LIMITS: u64 = 0;
pub const STAGE_HEADER: u64 = 1;
pub const STAGE_SECTIONS: u64 = 2;
pub const STAGE_CALL: u64 = 10;

/// Calls that write plain numbers at a place of an output.
macro_rules! writers {
    ($($name:ident = $call:ident($($value:ident: $kind:ty),*);)*) => {
        extern "C" {
            $(fn $call(out: *mut u8, len: usize, at: u64, $($value: $kind),*) -> Answer;)*
        }
        $(pub fn $name(out: &mut [u8], at: u64, $($value: $kind),*) -> Answer {
            // SAFETY: the pointer and the length are those of a slice that is ours alone until the call returns.
            unsafe { $call(out.as_mut_ptr(), out.len(), at, $($value),*) }
        })*
    };
}

/// Calls that write the elements of a slice at a place of an output.
macro_rules! slice_writers {
    ($($name:ident = $call:ident($kind:ty);)*) => {
        extern "C" {
            $(fn $call(out: *mut u8, len: usize, at: u64, values: *const $kind, count: usize) -> Answer;)*
        }
        $(pub fn $name(out: &mut [u8], at: u64, values: &[$kind]) -> Answer {
            // SAFETY: as above; a `&mut` slice and a `&` slice do not overlap.
            unsafe { $call(out.as_mut_ptr(), out.len(), at, values.as_ptr(), values.len()) }
        })*
    };
}

/// Calls that read at a place of the data.
macro_rules! readers {
    ($($name:ident = $call:ident($($value:ident: $kind:ty),*) -> $answer:ty;)*) => {
        extern "C" {
            $(fn $call(data: *const u8, len: usize, at: u64, $($value: $kind),*) -> $answer;)*
        }
        $(pub fn $name(data: &[u8], at: u64, $($value: $kind),*) -> $answer {
            // SAFETY: the pointer and the length are those of a slice that nobody changes until the call returns.
            unsafe { $call(data.as_ptr(), data.len(), at, $($value),*) }
        })*
    };
}

/// Views of a file, by an index or an id.
macro_rules! views {
    ($($name:ident = $call:ident;)*) => {
        extern "C" {
            $(fn $call(file: *const u8, file_len: usize, index: u64) -> Answer;)*
        }
        $(pub fn $name(file: &[u8], index: u64) -> Answer {
            // SAFETY: as above.
            unsafe { $call(file.as_ptr(), file.len(), index) }
        })*
    };
}

/// Calls on a number alone.
macro_rules! conversions {
    ($($name:ident = $call:ident;)*) => {
        extern "C" {
            $(fn $call(f64_bits: u64) -> u8;)*
        }
        $(pub fn $name(f64_bits: u64) -> u8 {
            // SAFETY: the call takes a number and lends nothing.
            unsafe { $call(f64_bits) }
        })*
    };
}

extern "C" {
    fn tikomuci_measure(file: *const u8, file_len: usize) -> Answer;
    fn tikomuci_read(
        file: *const u8,
        file_len: usize,
        sheet: *mut u8,
        sheet_len: usize,
        pool: *mut u8,
        pool_len: usize,
    ) -> Answer;
    fn tikomuci_image(sheet: *const u8, sheet_len: usize) -> Answer;
    fn tikomuci_write(
        sheet: *const u8,
        sheet_len: usize,
        pool: *const u8,
        pool_len: usize,
        out: *mut u8,
        out_len: usize,
    ) -> Answer;
    fn tikomuci_type_text(sheet: *const u8, sheet_len: usize, row: u64, out: *mut u8, out_len: usize) -> Answer;
}

/// How many words and pool bytes a file's tables take.
pub fn measure(file: &[u8]) -> Answer {
    // SAFETY: the pointer and the length are those of a slice that nobody changes until the call returns.
    unsafe { tikomuci_measure(file.as_ptr(), file.len()) }
}

/// Reads a file's tables. The sheet's words are lent as bytes, little-endian, at any alignment.
pub fn read(file: &[u8], sheet: &mut [u8], pool: &mut [u8]) -> Answer {
    // SAFETY: as above, and both stores are ours alone until the call returns; `&mut` slices do not overlap.
    unsafe { tikomuci_read(file.as_ptr(), file.len(), sheet.as_mut_ptr(), sheet.len(), pool.as_mut_ptr(), pool.len()) }
}

/// How many bytes the file of a sheet takes. The sheet's words are lent as for `read`, and no pool is.
pub fn image(sheet: &[u8]) -> Answer {
    // SAFETY: as for `measure`.
    unsafe { tikomuci_image(sheet.as_ptr(), sheet.len()) }
}

/// Writes a sheet and its pool as a file.
pub fn write(sheet: &[u8], pool: &[u8], out: &mut [u8]) -> Answer {
    // SAFETY: as above, and the output is ours alone until the call returns; a `&mut` slice overlaps no other.
    unsafe { tikomuci_write(sheet.as_ptr(), sheet.len(), pool.as_ptr(), pool.len(), out.as_mut_ptr(), out.len()) }
}

/// Writes the name of a type row of a sheet at the start of an output.
pub fn type_text(sheet: &[u8], row: u64, out: &mut [u8]) -> Answer {
    // SAFETY: as above.
    unsafe { tikomuci_type_text(sheet.as_ptr(), sheet.len(), row, out.as_mut_ptr(), out.len()) }
}

writers! {
    write_byte = tikomuci_write_byte(value: u8);
    write_varint = tikomuci_write_varint(value: u64);
    write_signed_varint = tikomuci_write_signed_varint(value: i64);
    write_le_u8 = tikomuci_write_le_u8(value: u8);
    write_le_u16 = tikomuci_write_le_u16(value: u16);
    write_le_u32 = tikomuci_write_le_u32(value: u32);
    write_le_u64 = tikomuci_write_le_u64(value: u64);
    write_le_i32 = tikomuci_write_le_i32(value: i32);
    write_le_i64 = tikomuci_write_le_i64(value: i64);
    write_le_f32 = tikomuci_write_le_f32(bits: u32);
    write_le_f64 = tikomuci_write_le_f64(bits: u64);
    write_ap_float_f64 = tikomuci_write_ap_float_f64(f64_bits: u64);
    write_ap_float_f8e4m3fn = tikomuci_write_ap_float_f8e4m3fn(f64_bits: u64);
    write_ap_float_f8e5m2 = tikomuci_write_ap_float_f8e5m2(f64_bits: u64);
    align_to = tikomuci_align_to(required_alignment: u64, alignment: u64);
    patch_u32 = tikomuci_patch_u32(value: u32);
    patch_u64 = tikomuci_patch_u64(value: u64);
}

slice_writers! {
    write_bytes = tikomuci_write_bytes(u8);
    write_le_var_size_i32 = tikomuci_write_le_var_size_i32(i32);
    write_le_var_size_i64 = tikomuci_write_le_var_size_i64(i64);
}

readers! {
    read_byte = tikomuci_read_byte() -> Answer;
    read_bytes = tikomuci_read_bytes(n: u64) -> Answer;
    read_varint = tikomuci_read_varint() -> Answer;
    read_signed_varint = tikomuci_read_signed_varint() -> Answer;
    read_le_u8 = tikomuci_read_le_u8() -> Answer;
    read_le_u16 = tikomuci_read_le_u16() -> Answer;
    read_le_u32 = tikomuci_read_le_u32() -> Answer;
    read_le_u64 = tikomuci_read_le_u64() -> Answer;
    read_le_i32 = tikomuci_read_le_i32() -> Answer;
    read_le_i64 = tikomuci_read_le_i64() -> Answer;
    skip_padding = tikomuci_skip_padding(alignment: u64) -> Answer;
    read_le_var_size_i32 = tikomuci_read_le_var_size_i32() -> Answer;
    read_le_var_size_i64 = tikomuci_read_le_var_size_i64() -> Answer;
    remaining = tikomuci_remaining() -> u64;
}

views! {
    string = tikomuci_string;
    constant = tikomuci_constant;
    body = tikomuci_body;
    section = tikomuci_section;
}

conversions! {
    f8e4m3fn = tikomuci_f8e4m3fn;
    f8e5m2 = tikomuci_f8e5m2;
}
