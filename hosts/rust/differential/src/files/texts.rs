//! decoder.rs's text of files that are accepted, against the one that is made from the library's tables, and against
//! the names that the library gives to their types.

use dump::Present;

use super::calls::Tables;
use super::judge::{ask, Rust};
use super::{shown, DEBUG, FUNC};
use crate::memory::{exhausts, MEMORY};
use crate::names::Lines;
use crate::tally::{Against, Tally};

/// What comparing a text came to.
pub enum Compared {
    Equal(String),
    Differs,
    /// The names of types are too long, and decoder.rs ran out of memory over them.
    Exhausts,
}

/// decoder.rs's text, from what the library says of a file that it accepts, unless it is too long for `MEMORY`.
fn text(file: &[u8], (words, pool): &Tables) -> Option<String> {
    let present = |id| boundary::section(file, id).refusal == 0;
    dump::text(words, pool, Present { func: present(FUNC), debug: present(DEBUG) }, MEMORY as usize).ok()
}

/// The word of a sheet that says how many types it has.
const TYPES: usize = 8;

pub struct Texts {
    tally: Tally,
    names: Lines,
}

impl Texts {
    pub fn new() -> Self {
        Self { tally: Tally::new("the text of decoder.rs", Against::Rust), names: Lines::new("its names of types") }
    }

    pub fn compare(&mut self, file: &[u8], tables: &Tables) -> Compared {
        let size = [file.len() as u64, 0, 0];
        let sheet: Vec<u8> = tables.0.iter().flat_map(|word| word.to_le_bytes()).collect();
        let Some(text) = text(file, tables) else {
            let exhausts = exhausts(|| drop(ask(file)));
            self.tally.case(exhausts, size, || format!("{}: the text is long, and decoder.rs makes it", shown(file)));
            self.names.compare_without_text(&sheet, tables.0[TYPES]);
            return if exhausts { Compared::Exhausts } else { Compared::Differs };
        };
        let rust = ask(file);
        let equal = matches!(&rust, Rust::Text(theirs) if *theirs == text);
        self.tally
            .case(equal, size, || format!("{}: from our tables {text:?}, and decoder.rs says {rust:?}", shown(file)));
        if equal {
            self.names.compare(&sheet, &text);
            Compared::Equal(text)
        } else {
            Compared::Differs
        }
    }

    /// How many types were named by decoder.rs, and compared.
    pub fn named(&self) -> u64 {
        self.names.listed
    }

    pub fn finish(self) -> [Tally; 2] {
        [self.tally, self.names.finish()]
    }
}
