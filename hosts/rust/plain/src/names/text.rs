//! A text that is measured, or written into an output.

use crate::refusal::{stop, Stop, FULL};

/// The bits of `DYNAMIC`: a dimension that is not known.
const DYNAMIC: u64 = 1 << 63;

/// What a text is made of. The numbers are words of a sheet, signed ones as their bits.
pub trait Text {
    fn bytes(&mut self, bytes: &[u8]) -> Result<(), Stop>;

    fn decimal(&mut self, number: u64) -> Result<(), Stop>;

    fn i64(&mut self, bits: u64) -> Result<(), Stop> {
        let number = bits as i64;
        if number < 0 {
            self.bytes(b"-")?;
        }
        self.decimal(number.unsigned_abs())
    }

    fn i32(&mut self, bits: u64) -> Result<(), Stop> {
        self.i64(i64::from(bits as u32 as i32) as u64)
    }

    fn dimension(&mut self, bits: u64) -> Result<(), Stop> {
        match bits {
            DYNAMIC => self.bytes(b"?"),
            bits => self.i64(bits),
        }
    }

    /// Numbers with something between them.
    fn joined(
        &mut self,
        numbers: &[u64],
        between: &[u8],
        show: impl Fn(&mut Self, u64) -> Result<(), Stop>,
    ) -> Result<(), Stop> {
        for (i, &number) in numbers.iter().enumerate() {
            if i > 0 {
                self.bytes(between)?;
            }
            show(self, number)?;
        }
        Ok(())
    }
}

/// A text of which only the length is wanted, if there is room for it.
pub struct Measured {
    size: usize,
    room: usize,
}

impl Measured {
    pub fn within(room: usize) -> Self {
        Self { size: 0, room }
    }

    pub fn size(&self) -> usize {
        self.size
    }

    fn more(&mut self, size: usize) -> Result<(), Stop> {
        self.size += size;
        if self.size > self.room {
            return Err(stop(FULL));
        }
        Ok(())
    }
}

impl Text for Measured {
    fn bytes(&mut self, bytes: &[u8]) -> Result<(), Stop> {
        self.more(bytes.len())
    }

    fn decimal(&mut self, number: u64) -> Result<(), Stop> {
        self.more(number.checked_ilog10().unwrap_or(0) as usize + 1)
    }
}

/// The part of an output that is not written yet.
pub struct Written<'o>(pub &'o mut [u8]);

impl Text for Written<'_> {
    fn bytes(&mut self, bytes: &[u8]) -> Result<(), Stop> {
        let (own, left) = std::mem::take(&mut self.0).split_at_mut_checked(bytes.len()).ok_or(stop(FULL))?;
        own.copy_from_slice(bytes);
        self.0 = left;
        Ok(())
    }

    fn decimal(&mut self, number: u64) -> Result<(), Stop> {
        let mut digits = [0; 20];
        let (mut at, mut left) = (digits.len(), number);
        loop {
            at -= 1;
            digits[at] = b'0' + (left % 10) as u8;
            left /= 10;
            if left == 0 {
                return self.bytes(&digits[at..]);
            }
        }
    }
}
