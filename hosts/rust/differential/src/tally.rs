//! What the comparisons share: random numbers from a seed, and the count of cases with the smallest one that differed.

/// SplitMix64: each seed gives one sequence, on every machine.
pub struct Random(u64);

impl Random {
    pub fn new(seed: u64) -> Self {
        Self(seed)
    }

    pub fn word(&mut self) -> u64 {
        self.0 = self.0.wrapping_add(0x9E37_79B9_7F4A_7C15);
        let mut z = self.0;
        z = (z ^ (z >> 30)).wrapping_mul(0xBF58_476D_1CE4_E5B9);
        z = (z ^ (z >> 27)).wrapping_mul(0x94D0_49BB_1331_11EB);
        z ^ (z >> 31)
    }

    /// A number below `end`, which is small: the bias does not matter here.
    pub fn below(&mut self, end: u64) -> u64 {
        self.word() % end
    }

    pub fn one_in(&mut self, n: u64) -> bool {
        self.below(n) == 0
    }

    /// A number of any length in bits, each length as likely; one in four is the negative of such a number.
    pub fn number(&mut self) -> u64 {
        let number = self.word() >> self.below(64);
        if self.one_in(4) {
            number.wrapping_neg()
        } else {
            number
        }
    }
}

/// Numbers at which a width, a spelling or a sign changes: each power of two, its neighbours, and their negatives.
pub fn edges() -> Vec<u64> {
    let mut edges = vec![0];
    for shift in 0..64 {
        let power = 1u64 << shift;
        for near in [power - 1, power, power + 1] {
            edges.extend([near, near.wrapping_neg()]);
        }
    }
    edges.sort_unstable();
    edges.dedup();
    edges
}

/// What a case is compared with.
#[derive(Clone, Copy)]
pub enum Against {
    /// encoding.rs or decoder.rs, which was asked.
    Rust,
    /// The second reader, judge, writer, cache and names, hosts/rust/plain.
    Plain,
    /// What is known without either: the tables of which a file was made, or document 01 where the Rust cannot be asked.
    Known,
    /// Nothing: the case is something that a run has to come upon.
    Demand,
}

const AGAINST: [(Against, &str); 4] = [
    (Against::Rust, "against the Rust"),
    (Against::Plain, "against the second reader, judge, writer, cache and names"),
    (Against::Known, "against what is known without them"),
    (Against::Demand, "demands on the run"),
];

/// Cases, and how many of them differ.
type Count = [u64; 2];

/// The comparison of one call.
pub struct Tally {
    name: &'static str,
    against: Against,
    counts: [Count; AGAINST.len()],
    smallest: Option<([u64; 3], String)>,
}

impl Tally {
    pub fn new(name: &'static str, against: Against) -> Self {
        Self { name, against, counts: Default::default(), smallest: None }
    }

    /// Counts a case. Of those that differ, the one with the least `size` is kept, in the words of `describe`.
    pub fn case(&mut self, equal: bool, size: [u64; 3], describe: impl FnOnce() -> String) {
        self.case_against(self.against, equal, size, describe);
    }

    /// Counts a case that is compared with something else than the others.
    pub fn case_against(&mut self, against: Against, equal: bool, size: [u64; 3], describe: impl FnOnce() -> String) {
        let [cases, differing] = &mut self.counts[against as usize];
        *cases += 1;
        if equal {
            return;
        }
        *differing += 1;
        if self.smallest.as_ref().is_none_or(|(least, _)| size < *least) {
            self.smallest = Some((size, describe()));
        }
    }

    /// All cases, whatever they were compared with.
    fn total(&self) -> Count {
        self.counts.iter().fold([0; 2], |[cases, differing], count| [cases + count[0], differing + count[1]])
    }

    fn print(&self) {
        let [cases, differing] = self.total();
        match &self.smallest {
            None => println!("  {:<26} {cases:>9} cases, all equal", self.name),
            Some((_, text)) => {
                println!("  {:<26} {cases:>9} cases, {differing} DIFFER; the smallest: {text}", self.name);
            }
        }
    }
}

/// A whole run: how large it is, and what it came to.
pub struct Report {
    share: u64,
    counts: [Count; AGAINST.len()],
}

impl Report {
    /// A run with one of `share` of the cases. Only a whole one has to come upon all that there is.
    pub fn new(share: u64) -> Self {
        Self { share, counts: Default::default() }
    }

    /// How many of so many cases this run has.
    pub fn share_of(&self, cases: u64) -> u64 {
        cases / self.share
    }

    /// Prints the line of a call, and counts its cases.
    pub fn add(&mut self, tally: Tally) {
        tally.print();
        for (sum, count) in self.counts.iter_mut().zip(tally.counts) {
            *sum = [sum[0] + count[0], sum[1] + count[1]];
        }
    }

    /// The same for what a whole run has to come upon.
    pub fn demand(&mut self, tally: Tally) {
        if self.share == 1 {
            self.add(tally);
        }
    }

    /// Prints what all came to, and says whether nothing differed.
    pub fn finish(self) -> bool {
        for (against, what) in AGAINST {
            let [cases, differing] = self.counts[against as usize];
            println!("{what}: {cases} cases, {differing} differ");
        }
        self.counts.iter().all(|[_, differing]| *differing == 0)
    }
}
