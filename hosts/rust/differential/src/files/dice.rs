//! Random choices, with a count of how often each freedom of the layout was taken.

use std::ops::{Deref, DerefMut};

use crate::tally::{Against, Random, Tally};

macro_rules! freedoms {
    ($($name:ident = $what:literal,)*) => {
        /// What document 01's "The container" leaves to the writer of a file, and faults that a file may have.
        #[derive(Clone, Copy)]
        pub enum Freedom { $($name),* }

        const FREEDOMS: &[&str] = &[$($what),*];
    };
}

freedoms! {
    Longer = "a varint in a longer spelling",
    TenthByte = "a varint of ten bytes, with bits that do not count",
    Gap = "a gap before the first entry",
    IdsBeforeLists = "ids before the first list",
    LeftInEntry = "bytes left in an entry",
    LeftInPayload = "bytes behind a payload's last item",
    EmptyTable = "a count of 0 with bytes behind it",
    OneZero = "a payload of exactly one zero byte",
    AbsentSection = "an absent section",
    Aligned = "an alignment that pads",
    OddAlignment = "an alignment that is no power of two",
    SmallAlignment = "an alignment of 0 or 1",
    Alignment256 = "an alignment of 256",
    Alignment260 = "an alignment of 260",
    FarAlignment = "an alignment of 2^32, which no file has room for",
    FarthestAlignment = "an alignment of 2^64 - 1, which no file has room for",
    Repeated = "an earlier section with the same id and any bytes",
    RepeatedWhole = "an earlier section with the same id that is valid itself",
    UnknownId = "a section with an unknown id",
    EndWithTopBit = "an end marker with its top bit",
    AfterEnd = "bytes after the end marker",
    LongGap = "a gap of hundreds of bytes",
    LongLeft = "hundreds of bytes behind a payload's last item",
    LongTail = "hundreds of bytes after the end marker",
    Producer = "a producer",
    InvalidUtf8 = "a string that is no UTF-8",
    LargeConstant = "a constant of 16,384 to 70,000 bytes of any value",
    LongTypeList = "a list of 200 in a type",
    LongDebugList = "a debug list of 200",
    LaterMinor = "a version from 13.5 to 13.255",
    LaterMajor = "version 14.0",
    TwoFaults = "two faults at once",
    ThreeFaults = "three faults at once",
}

/// A source of random numbers that knows which freedoms were taken.
pub struct Dice<'r> {
    random: &'r mut Random,
    taken: [u64; FREEDOMS.len()],
}

impl<'r> Dice<'r> {
    pub fn new(random: &'r mut Random) -> Self {
        Self { random, taken: [0; FREEDOMS.len()] }
    }

    pub fn took(&mut self, freedom: Freedom) {
        self.taken[freedom as usize] += 1;
    }

    /// Takes a freedom in one of `n` cases.
    pub fn takes(&mut self, freedom: Freedom, n: u64) -> bool {
        let taken = self.one_in(n);
        self.taken[freedom as usize] += u64::from(taken);
        taken
    }

    /// Prints how often each was taken; each has to have been.
    pub fn finish(self) -> Tally {
        let mut tally = Tally::new("every freedom is taken", Against::Demand);
        println!("  freedoms, and how often they were taken:");
        for (what, taken) in FREEDOMS.iter().zip(self.taken) {
            println!("    {what}: {taken}");
            tally.case(taken > 0, [0; 3], || format!("no file has {what}"));
        }
        tally
    }
}

impl Deref for Dice<'_> {
    type Target = Random;

    fn deref(&self) -> &Random {
        self.random
    }
}

impl DerefMut for Dice<'_> {
    fn deref_mut(&mut self) -> &mut Random {
        self.random
    }
}
