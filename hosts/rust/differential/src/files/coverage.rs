//! What the accepted files had: every type tag in every class of versions, every debug tag, and sizes.

use std::collections::{BTreeMap, BTreeSet};

use dump::Sheet;

use super::types::TAGS;
use crate::tally::{Against, Tally};

pub const CLASSES: [&str; 3] = ["below 13.3", "from 13.3", "from 13.4"];
const DEBUG_TAGS: u64 = 7;
/// The file at the limit of 2^30 bytes is left out of the sizes.
const LARGE: usize = 1 << 20;

#[derive(Default)]
pub struct Coverage {
    types: BTreeMap<(u64, usize), u64>,
    attributes: BTreeMap<u64, u64>,
    files: u64,
    bytes: u64,
    longest: usize,
}

/// The version class of a sheet, as its place in `CLASSES`.
pub fn version_class(words: &[u64]) -> usize {
    let version = (words[0], words[1]);
    usize::from(version >= (13, 3)) + usize::from(version >= (13, 4))
}

impl Coverage {
    pub fn add(&mut self, file: &[u8], words: &[u64]) {
        let (class, sheet) = (version_class(words), Sheet::new(words, &[]));
        for row in sheet.types() {
            *self.types.entry((row[0], class)).or_default() += 1;
        }
        for row in sheet.attributes() {
            *self.attributes.entry(row[0]).or_default() += 1;
        }
        if file.len() < LARGE {
            self.files += 1;
            self.bytes += file.len() as u64;
            self.longest = self.longest.max(file.len());
        }
    }

    /// How many tags of types, and of debug attributes, were met.
    pub fn kinds(&self) -> (usize, usize) {
        let tags: BTreeSet<u64> = self.types.keys().map(|(tag, _)| *tag).collect();
        (tags.len(), self.attributes.len())
    }

    /// Prints the rarest of each, which has to be there.
    pub fn finish(self) -> Tally {
        let mut tally = Tally::new("every kind is accepted", Against::Demand);
        let mut rarest = u64::MAX;
        for (tag, class) in TAGS.iter().flat_map(|&tag| (0..CLASSES.len()).map(move |class| (tag, class))) {
            let count = self.types.get(&(tag, class)).copied().unwrap_or(0);
            rarest = rarest.min(count);
            tally.case(count > 0, [0, tag, 0], || format!("no type with tag {tag} {}", CLASSES[class]));
        }
        println!("  types: {} tags in {} version classes, each {rarest} times or more", TAGS.len(), CLASSES.len());
        let mut rarest = u64::MAX;
        for tag in 0..DEBUG_TAGS {
            let count = self.attributes.get(&tag).copied().unwrap_or(0);
            rarest = rarest.min(count);
            tally.case(count > 0, [0, tag, 0], || format!("no attribute with tag {tag}"));
        }
        println!("  debug attributes: {DEBUG_TAGS} tags, each {rarest} times or more");
        println!("  files: {} bytes on average, {} at most", self.bytes / self.files.max(1), self.longest);
        tally
    }
}
