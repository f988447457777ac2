//! What a file is read into.

use boundary::Answer;

use crate::inputs::Input;

/// Stores that were touched.
pub struct Stores {
    pub sheet: Vec<u8>,
    pub pool: Vec<u8>,
}

/// How many words and bytes were filled.
fn filled(read: Answer) -> (usize, usize) {
    assert_eq!(read.refusal, 0, "a file of the bench is refused");
    (read.first as usize, read.second as usize)
}

impl Stores {
    /// As large as a file's tables.
    pub fn of(input: &Input) -> Self {
        Self { sheet: vec![1; input.sheet.len()], pool: vec![1; input.pool.len()] }
    }

    /// As large as the largest tables of some files.
    pub fn for_each(files: &[Vec<u8>]) -> Self {
        let most = |of: fn(Answer) -> u64| files.iter().map(|file| of(boundary::measure(file))).max().unwrap_or(0);
        let (words, bytes) = (most(|need| need.first), most(|need| need.second));
        Self { sheet: vec![1; 8 * words as usize], pool: vec![1; bytes as usize] }
    }

    pub fn read(&mut self, file: &[u8]) -> (usize, usize) {
        filled(boundary::read(file, &mut self.sheet, &mut self.pool))
    }

    /// Measures first, as a host does that does not know the file, and lends just what it needs.
    pub fn measure_and_read(&mut self, file: &[u8]) -> (usize, usize) {
        let need = boundary::measure(file);
        let (words, bytes) = (need.first as usize, need.second as usize);
        let read = filled(boundary::read(file, &mut self.sheet[..8 * words], &mut self.pool[..bytes]));
        assert_eq!(read, (words, bytes), "a file of the bench needs what was measured");
        read
    }
}
