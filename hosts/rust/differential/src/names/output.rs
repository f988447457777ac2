//! An output, with bytes around it that are not lent.

/// No byte of a name.
const UNTOUCHED: u8 = 0xA5;
const AROUND: usize = 16;

pub struct Output {
    bytes: Vec<u8>,
    lead: usize,
}

impl Output {
    /// So many bytes, at an alignment that `odd` says.
    pub fn new(odd: u64, room: usize) -> Self {
        let lead = AROUND + odd as usize % 8;
        Self { bytes: vec![UNTOUCHED; lead + room + AROUND], lead }
    }

    pub fn lent(&mut self) -> &mut [u8] {
        let end = self.bytes.len() - AROUND;
        &mut self.bytes[self.lead..end]
    }

    /// Whether it begins with a text, and every other byte is as before.
    pub fn has(&self, text: &[u8]) -> bool {
        let (before, from) = self.bytes.split_at(self.lead);
        let (own, after) = from.split_at(text.len());
        own == text && before.iter().chain(after).all(|&byte| byte == UNTOUCHED)
    }
}
