//! A window on the private reader of decoder.rs, below which it is compiled: the same calls, from a given place.

use crate::{Error, Result};

/// decoder.rs's `Reader`.
pub struct Reader<'a>(super::Reader<'a>);

impl<'a> Reader<'a> {
    pub fn at(data: &'a [u8], pos: usize) -> Self {
        Self(super::Reader { data, pos })
    }

    pub fn pos(&self) -> usize {
        self.0.pos
    }

    pub fn remaining(&self) -> usize {
        self.0.remaining()
    }

    pub fn read_byte(&mut self) -> Result<u8> {
        self.0.read_byte()
    }

    pub fn read_bytes(&mut self, n: usize) -> Result<&'a [u8]> {
        self.0.read_bytes(n)
    }

    pub fn read_varint(&mut self) -> Result<u64> {
        self.0.read_varint()
    }

    pub fn read_signed_varint(&mut self) -> Result<i64> {
        self.0.read_signed_varint()
    }

    pub fn read_le_u8(&mut self) -> Result<u8> {
        self.0.read_le_u8()
    }

    pub fn read_le_u16(&mut self) -> Result<u16> {
        self.0.read_le_u16()
    }

    pub fn read_le_u32(&mut self) -> Result<u32> {
        self.0.read_le_u32()
    }

    /// As decoder.rs reads the starts of constants, in `parse_constant_section`.
    pub fn read_le_u64(&mut self) -> Result<u64> {
        let bytes = self.0.read_bytes(8)?;
        Ok(u64::from_le_bytes(bytes.try_into().unwrap()))
    }

    pub fn read_le_i32(&mut self) -> Result<i32> {
        self.0.read_le_i32()
    }

    pub fn read_le_i64(&mut self) -> Result<i64> {
        self.0.read_le_i64()
    }

    pub fn skip_padding(&mut self, alignment: u64) -> Result<()> {
        self.0.skip_padding(alignment)
    }

    /// A counted array as `decode_type_entry` reads one, but for its `unwrap_or(0)`.
    pub fn read_le_var_size_i32(&mut self, numbers: &mut Vec<i32>) -> Result<u64> {
        let count = self.0.read_varint()?;
        for _ in 0..count {
            numbers.push(self.0.read_le_i32()?);
        }
        Ok(count)
    }

    /// The same for i64.
    pub fn read_le_var_size_i64(&mut self, numbers: &mut Vec<i64>) -> Result<u64> {
        let count = self.0.read_varint()?;
        for _ in 0..count {
            numbers.push(self.0.read_le_i64()?);
        }
        Ok(count)
    }
}

/// What going over the sections of a file comes to.
pub enum Walk {
    /// Offset and length of each section's payload.
    Sections([Option<(u64, u64)>; 8]),
    /// An error, and whether the header was read before it.
    Error(Error, bool),
    /// A length whose end wraps, at which `decode_bytecode` panics.
    Wraps,
}

/// The steps of `decode_bytecode` over the sections of a file.
pub fn walk(data: &[u8]) -> Walk {
    let mut reader = super::Reader::new(data);
    if let Err(error) = reader.read_header() {
        return Walk::Error(error, false);
    }
    let mut sections = super::RawSections::default();
    loop {
        let header = match reader.read_section_header() {
            Ok(header) => header,
            Err(error) => return Walk::Error(error, true),
        };
        if header.id == super::Section::EndOfBytecode as u8 {
            break;
        }
        if reader.pos.checked_add(header.data_len).is_none() {
            return Walk::Wraps;
        }
        match reader.read_bytes(header.data_len) {
            Ok(payload) => sections.insert(header.id, payload),
            Err(error) => return Walk::Error(error, true),
        }
    }
    Walk::Sections(std::array::from_fn(|id| {
        let payload = sections.get(id as u8)?;
        Some((payload.as_ptr() as u64 - data.as_ptr() as u64, payload.len() as u64))
    }))
}

/// The refusal number that document 01 gives to an error of the reader.
pub fn refusal(error: &Error) -> u64 {
    let Error::BytecodeWrite(message) = error;
    match message.as_str() {
        "decode: unexpected end of data" => 2,
        "decode: varint overflow" => 3,
        "decode: invalid magic number" => 4,
        message if message.starts_with("decode: expected padding byte") => 5,
        message => panic!("the reader has no such error: {message}"),
    }
}
