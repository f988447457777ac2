//! The smallest files on which decoder.rs parts from this library, by the rows of docs/DIFFERENCES.md. Those on which
//! its memory would run out are in apart.rs.

use boundary::Answer;
use oracle::bytecode::MAGIC;

use super::calls::Stores;
use super::judge::{ask, wrapping_end, Fault, Rust};

/// A file of version 13.1 with these sections.
pub fn sections(sections: &[(u8, &[u8])]) -> Vec<u8> {
    let mut file = [&MAGIC[..], &[13, 1, 0, 0]].concat();
    for (id, payload) in sections {
        let size = payload.len() as u16;
        file.push(*id);
        file.extend(if size < 128 { vec![size as u8] } else { vec![size as u8 | 0x80, (size >> 7) as u8] });
        file.extend_from_slice(payload);
    }
    file.push(0);
    file
}

pub fn one_section(id: u8, payload: &[u8]) -> Vec<u8> {
    sections(&[(id, payload)])
}

/// A Type section with one entry.
pub fn one_type(entry: &[u8]) -> Vec<u8> {
    one_section(5, &[&[1, 0xCB, 0xCB, 0xCB, 0, 0, 0, 0], entry].concat())
}

/// A file that we refuse.
pub struct Smallest {
    pub what: &'static str,
    pub file: Vec<u8>,
    ours: Answer,
    rust: Expected,
}

/// What decoder.rs does with it.
enum Expected {
    Says(&'static str),
    Panics(Fault),
}

impl Smallest {
    /// Whether both sides do as docs/DIFFERENCES.md says.
    pub fn holds(&self) -> bool {
        let rust = match (&self.rust, ask(&self.file)) {
            (Expected::Says(part), Rust::Text(text)) => text.contains(part),
            (Expected::Panics(fault), Rust::Panic(panic)) => *fault == panic,
            _ => false,
        };
        rust && boundary::measure(&self.file) == self.ours
    }
}

/// Files that decoder.rs takes, and what its text then says.
fn taken() -> Vec<Smallest> {
    let says = |what, file, (number, stage), part| Smallest {
        what,
        file,
        ours: Answer::refused_at(number, stage),
        rust: Expected::Says(part),
    };
    vec![
        says("an empty type entry", one_type(&[]), (2, 5), "<read error>"),
        says("a pointer without its element", one_type(&[12]), (2, 5), "ptr<?>"),
        says("a varint past its tenth byte in a type entry", one_type(&[0xFF; 10]), (3, 5), "<read error>"),
        says("an unknown type tag", one_type(&[23]), (8, 5), "<unknown type tag 23>"),
        says("a type tag above 255", one_type(&[0x80, 2]), (8, 5), "[0] i1"),
        says("the hints flag", one_section(2, &[1, 0, 0, 4, 0, 0]), (10, 8), "[has optimization_hints]"),
    ]
}

/// Files on which decoder.rs panics.
fn breaking() -> Vec<Smallest> {
    let panics = |what, id, payload: &[u8], (number, stage), fault| Smallest {
        what,
        file: one_section(id, payload),
        ours: Answer::refused_at(number, stage),
        rust: Expected::Panics(fault),
    };
    let far_start = [1, 0xCB, 0xCB, 0xCB, 1, 0, 0, 0];
    let far_constant = [1, 0xCB, 0xCB, 0xCB, 0xCB, 0xCB, 0xCB, 0xCB, 1, 0, 0, 0, 0, 0, 0, 0];
    let body = [&[1, 0, 0, 0, 0][..], &[0xFF; 9], &[1]].concat();
    let count = [&[0x80; 8][..], &[8]].concat();
    vec![
        panics("a string outside its data", 1, &far_start, (6, 3), Fault::Slice),
        panics("a type outside its data", 5, &far_start, (6, 5), Fault::Slice),
        panics("a constant outside its data", 4, &far_constant, (6, 6), Fault::Slice),
        panics("a body whose end wraps", 2, &body, (2, 8), wrapping_end()),
        panics("a count for which no capacity exists", 6, &count, (2, 7), Fault::Capacity),
    ]
}

pub fn all() -> Vec<Smallest> {
    let mut all = taken();
    all.extend(breaking());
    all
}

/// A string that is no UTF-8: decoder.rs shows a text of its own, and we keep the byte.
pub fn invalid_utf8() -> bool {
    let file = one_section(1, &[1, 0xCB, 0xCB, 0xCB, 0, 0, 0, 0, 0xFF]);
    let mut stores = Stores::at(0, 160, 1);
    let says = matches!(ask(&file), Rust::Text(text) if text.contains("\"<invalid utf8>\""));
    says && stores.read(&file) == Answer::accepted(20, 1) && stores.pool(1) == [0xFF]
}
