//! Refusals: document 01's number and stage.

pub const LIMIT: u64 = 1;
pub const SHORT: u64 = 2;
pub const OVERLONG: u64 = 3;
pub const MAGIC: u64 = 4;
pub const PADDING: u64 = 5;
pub const BOUNDS: u64 = 6;
pub const PRODUCER: u64 = 7;
pub const TYPE_TAG: u64 = 8;
pub const DEBUG_TAG: u64 = 9;
pub const HINTS: u64 = 10;
pub const FULL: u64 = 11;
pub const SHEET: u64 = 12;
pub const START: u64 = 13;
pub const ABSENT: u64 = 14;
pub const NO_SLOT: u64 = 18;
pub const STAGE_CALL: u64 = 10;

/// What tells refusals of one number and stage apart. No answer has it; the comparison with decoder.rs asks for it.
#[derive(Debug, Clone, Copy, PartialEq, Eq, PartialOrd, Ord)]
pub enum Detail {
    None,
    /// A run of bytes whose end is past 2^64.
    EndWraps,
    /// A string, a type or a constant that is not inside its data.
    Outside,
    /// A field of a type entry, or its tag.
    TypeEntry,
    /// A type tag above 255.
    WideTag,
    /// A count for which decoder.rs reserves more than there can be. Document 01 refuses what is missing.
    Capacity,
    /// A count for which decoder.rs reserves more than the memory that it has.
    Memory,
}

/// Why reading a part stopped.
#[derive(Debug, Clone, Copy, PartialEq, Eq)]
pub struct Stop {
    pub number: u64,
    pub detail: Detail,
}

/// A refusal without more to say.
pub const fn stop(number: u64) -> Stop {
    Stop { number, detail: Detail::None }
}

#[derive(Debug, Clone, Copy, PartialEq, Eq)]
pub struct Refusal {
    pub number: u64,
    pub stage: u64,
    pub detail: Detail,
}

/// Puts the stage to why reading stopped.
pub trait AtStage<T> {
    fn at_stage(self, stage: u64) -> Result<T, Refusal>;
}

impl<T> AtStage<T> for Result<T, Stop> {
    fn at_stage(self, stage: u64) -> Result<T, Refusal> {
        self.map_err(|Stop { number, detail }| Refusal { number, stage, detail })
    }
}
