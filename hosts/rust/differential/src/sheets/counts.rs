//! How often each refusal was asked for. Each that can be given has to have been, and no other.

use std::collections::BTreeMap;

use crate::tally::{Against, Tally};

const LEAST_WELL_FORMED: u64 = 50_000;
const LEAST_REFUSED: u64 = 100_000;

/// The answers of `image`: 0 is no refusal.
const OF_IMAGE: [u64; 4] = [0, 1, 12, 13];
/// Those of `write`. 13 is none of them: strings of a pool within its limit start below 2^30.
const OF_WRITE: [u64; 4] = [0, 1, 11, 12];

#[derive(Default)]
pub struct Counts {
    pub well_formed: u64,
    image: BTreeMap<u64, u64>,
    write: BTreeMap<u64, u64>,
    long_texts: u64,
}

impl Counts {
    pub fn image(&mut self, number: u64) {
        *self.image.entry(number).or_default() += 1;
    }

    pub fn write(&mut self, number: u64) {
        *self.write.entry(number).or_default() += 1;
    }

    pub fn text_too_long(&mut self) {
        self.long_texts += 1;
    }

    pub fn finish(self) -> Tally {
        let mut tally = Tally::new("every refusal occurs", Against::Demand);
        println!("  well-formed sheets: {}", self.well_formed);
        println!("  answers, as number and how often; 0 is an acceptance:");
        for (call, numbers, counts) in [("image", OF_IMAGE, &self.image), ("write", OF_WRITE, &self.write)] {
            let line: Vec<String> = counts.iter().map(|(number, count)| format!("{number}: {count}")).collect();
            println!("    {call}  {}", line.join(", "));
            let met: Vec<u64> = counts.keys().copied().collect();
            tally.case(met == numbers, [0; 3], || format!("{call} met {met:?}, and {numbers:?} was expected"));
        }
        let written = self.write.get(&0).copied().unwrap_or(0);
        println!("  files whose text is too long for decoder.rs, which was asked: {}", self.long_texts);
        tally.case(100 * self.long_texts < written, [0; 3], || format!("{} texts are too long", self.long_texts));
        let refused = self.write.get(&boundary::SHEET).copied().unwrap_or(0);
        let enough = self.well_formed >= LEAST_WELL_FORMED && refused >= LEAST_REFUSED;
        tally.case(enough, [0; 3], || format!("only {} well-formed, {refused} refused", self.well_formed));
        tally
    }
}
