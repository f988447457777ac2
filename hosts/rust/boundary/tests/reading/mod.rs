//! What the tests of whole files share: a file read by the library, decoder.rs's text of what was read, and the names
//! of types in such a text.

use boundary::{type_text, Answer, ABSENT, FULL};
use dump::Present;

pub const UNTOUCHED: u8 = 0xA5;

const FUNC: u64 = 2;
const DEBUG: u64 = 3;
const MOST_TEXT: usize = 1 << 20;

/// A file's sheet and its pool, read into stores that fit.
pub fn read(file: &[u8]) -> (Vec<u64>, Vec<u8>) {
    let size = boundary::measure(file);
    assert_eq!((size.refusal, size.stage), (0, 0), "{file:02X?}");
    let mut sheet = vec![UNTOUCHED; 8 * size.first as usize];
    let mut pool = vec![UNTOUCHED; size.second as usize];
    assert_eq!(boundary::read(file, &mut sheet, &mut pool), size, "{file:02X?}");
    let words = sheet.chunks_exact(8).map(|eight| u64::from_le_bytes(eight.try_into().unwrap())).collect();
    (words, pool)
}

/// The text that decoder.rs makes of a file with this sheet and pool.
pub fn text(file: &[u8], words: &[u64], pool: &[u8]) -> String {
    let present = |id| boundary::section(file, id).refusal == 0;
    let present = Present { func: present(FUNC), debug: present(DEBUG) };
    dump::text(words, pool, present, MOST_TEXT).expect("the text is short")
}

/// The names in the lines of a text of decoder.rs that are about types.
pub fn names<'t>(lines: impl Iterator<Item = &'t str>) -> Vec<&'t str> {
    let lines = lines.skip_while(|line| !line.starts_with("=== Types (")).skip(1);
    let name = |line: &'t str| line.split_once("] ").expect("a number stands before the name").1;
    lines.take_while(|line| !line.is_empty()).map(name).collect()
}

/// The type rows of a sheet have these names, and there are no others. An output that is a byte too small stays.
pub fn assert_names(words: &[u64], names: &[&str]) {
    let sheet: Vec<u8> = words.iter().flat_map(|word| word.to_le_bytes()).collect();
    for (row, name) in names.iter().enumerate() {
        let mut out = vec![UNTOUCHED; name.len() + 3];
        assert_eq!(type_text(&sheet, row as u64, &mut out), Answer::accepted(name.len() as u64, 0), "{name}");
        assert_eq!(out, [name.as_bytes(), &[UNTOUCHED; 3]].concat(), "{name}");
        let mut small = vec![UNTOUCHED; name.len() - 1];
        assert_eq!(type_text(&sheet, row as u64, &mut small), Answer::refused(FULL), "{name}");
        assert!(small.iter().all(|&byte| byte == UNTOUCHED), "{name}");
    }
    assert_eq!(type_text(&sheet, names.len() as u64, &mut []), Answer::refused(ABSENT), "{names:?}");
}
