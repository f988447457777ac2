//! What decoder.rs will do with a file, said before it is asked: hosts/rust/plain follows it, and meets the cause of
//! each difference by itself. A file is put to the entry of docs/DIFFERENCES.md whose cause was met first.

use dump::Present;
use plain::{Detail, Followed, Refusal, Stop};

use super::judge::{wrapping_end, Fault, Rust};
use super::{DEBUG, FUNC};
use crate::memory::MEMORY;

/// An entry of docs/DIFFERENCES.md, its cause, and what decoder.rs does with a file that we refuse.
pub type Class = (u8, &'static str, &'static str);

#[derive(Debug)]
pub enum Outcome {
    Text(String),
    /// An error with this number.
    Error(u64),
    Panic(Fault),
    /// It holds more than `MEMORY`; the text says for what.
    Exhausts(&'static str),
}

impl Outcome {
    /// Whether decoder.rs, which was asked, did so.
    pub fn is(&self, rust: &Rust) -> bool {
        match (self, rust) {
            (Self::Text(foretold), Rust::Text(text)) => foretold == text,
            (Self::Error(foretold), Rust::Error(number, _)) => foretold == number,
            (Self::Panic(foretold), Rust::Panic(fault)) => foretold == fault,
            _ => false,
        }
    }
}

#[derive(Debug)]
pub struct Foretold {
    pub outcome: Outcome,
    /// Without one, decoder.rs has to give the error with our number.
    pub class: Option<Class>,
}

/// The entry of what decoder.rs reads over.
fn read_over(over: &Stop, outcome: &Outcome) -> Class {
    let (entry, cause) = match (over.number, over.detail) {
        (1, _) => (22, "a file of more than 2^30 bytes"),
        (2, _) => (11, "a type entry that is short"),
        (3, _) => (12, "a varint past its tenth byte in a type entry"),
        (8, Detail::WideTag) => (14, "a type tag above 255"),
        (8, _) => (13, "an unknown type tag"),
        (10, _) => (15, "the hints flag"),
        _ => unreachable!("decoder.rs does not read over {over:?}"),
    };
    let then = match outcome {
        Outcome::Text(_) => "taken",
        Outcome::Error(_) => "refused for what comes later",
        Outcome::Panic(_) => "panics at what comes later",
        Outcome::Exhausts(_) => "runs out of memory later",
    };
    (entry, cause, then)
}

/// The entry of what decoder.rs panics at.
fn broken(end: &Refusal) -> Option<Class> {
    let (entry, cause) = match (end.detail, end.stage) {
        (Detail::Outside, _) => (16, "an entry outside its data"),
        (Detail::EndWraps, 2) => (5, "a section whose end wraps"),
        (Detail::EndWraps, _) => (17, "a body whose end wraps"),
        (Detail::Capacity, _) => (18, "a count for which no capacity exists"),
        _ => return None,
    };
    Some((entry, cause, "panics"))
}

/// What ends decoder.rs before the file does.
fn ended(end: &Refusal) -> Outcome {
    match (end.detail, end.stage) {
        (Detail::Outside, _) => Outcome::Panic(Fault::Slice),
        (Detail::EndWraps, _) => Outcome::Panic(wrapping_end()),
        (Detail::Capacity, _) => Outcome::Panic(Fault::Capacity),
        (Detail::Memory, 3) => Outcome::Exhausts("a count in String"),
        (Detail::Memory, 5) => Outcome::Exhausts("a count in Type"),
        (Detail::Memory, 6) => Outcome::Exhausts("a count in Constant"),
        (Detail::Memory, 7) => Outcome::Exhausts("a count in Global"),
        (Detail::Memory, _) => Outcome::Exhausts("a count in Func"),
        (Detail::None | Detail::TypeEntry | Detail::WideTag, _) => Outcome::Error(end.number),
    }
}

/// The text of what was read. It is made also where decoder.rs ends early: by then it has made names too.
fn text(Followed { end, reading, sections, .. }: &Followed) -> Outcome {
    let present = |id: u64| end.is_none() && sections[id as usize].is_some();
    let present = Present { func: present(FUNC), debug: present(DEBUG) };
    match (dump::text(&reading.words, &reading.pool, present, MEMORY as usize), end) {
        (Err(_), _) => Outcome::Exhausts("the names of types"),
        (Ok(text), None) => Outcome::Text(text),
        (Ok(_), Some(end)) => ended(end),
    }
}

/// Foretells what becomes of a file that we refuse. The cause that is met first has to be what we refuse it for.
pub fn foretell(file: &[u8], refusal: &Refusal) -> Foretold {
    let followed = plain::follow(file, MEMORY);
    let outcome = text(&followed);
    let class = match followed.over.first() {
        Some(over) if (over.number, over.detail) == (refusal.number, refusal.detail) => Some(read_over(over, &outcome)),
        Some(_) => None,
        None => followed.end.as_ref().filter(|end| end.stage == refusal.stage).and_then(broken),
    };
    Foretold { outcome, class }
}
