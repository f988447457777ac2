//! What types consist of: one table of their fields, by which entries are read and written and rows are judged and
//! taken apart.

use crate::container::Version;

pub const POINTER: u64 = 12;
pub const TILE: u64 = 13;
pub const TENSOR_VIEW: u64 = 14;
pub const PARTITION_VIEW: u64 = 15;
pub const FUNC: u64 = 16;
pub const GATHER_SCATTER_VIEW: u64 = 20;
pub const STRIDED_VIEW: u64 = 21;

/// A field, in the order of the wire. Each has its place in a row too, but for `Presence`.
#[derive(Clone, Copy)]
pub enum Field {
    /// A varint. Its bit 0 says whether the last field is there.
    Flags,
    /// Flags that the version does not have: 0, and not on the wire.
    NoFlags,
    /// Flags that are the `Presence` which comes later on the wire: 0 or 1.
    LateFlags,
    /// A byte; any but 0 means 1.
    Presence,
    /// A varint that stands for another type, or for a dimension.
    Index,
    /// A count, and as many numbers of so many bytes.
    Numbers(u8),
    /// A count, and as many varints.
    Indices,
    /// A byte if bit 0 of the flags is set, and else 0 and not on the wire.
    LastByte,
    /// The same as a varint.
    LastVarint,
}

/// The fields behind a tag, if the tag is known.
pub fn fields(tag: u64, version: Version) -> Option<&'static [Field]> {
    use Field::*;
    Some(match tag {
        0..=11 | 17..=19 | 22 | 0x82 => &[],
        POINTER if version.since(13, 4) => &[Flags, Index, LastByte],
        POINTER => &[NoFlags, Index, LastByte],
        TILE => &[Index, Numbers(8)],
        TENSOR_VIEW if version.since(13, 4) => &[Flags, Index, Numbers(8), Numbers(8), LastByte],
        TENSOR_VIEW => &[NoFlags, Index, Numbers(8), Numbers(8), LastByte],
        PARTITION_VIEW if version.since(13, 3) => &[Flags, Numbers(4), Index, Numbers(4), LastByte],
        PARTITION_VIEW => &[LateFlags, Numbers(4), Index, Numbers(4), Presence, LastVarint],
        FUNC => &[Indices, Indices],
        GATHER_SCATTER_VIEW => &[Flags, Numbers(4), Index, Index, LastByte],
        STRIDED_VIEW => &[Flags, Numbers(4), Numbers(4), Index, Numbers(4), LastByte],
        _ => return None,
    })
}

/// The fields of a row that is well-formed, by their kind and in their order.
#[derive(Default)]
pub struct Parts<'a> {
    pub flags: u64,
    pub indices: Vec<u64>,
    /// The lists, without their counts.
    pub lists: Vec<&'a [u64]>,
    pub last: u64,
}

/// Takes apart what a row has behind its tag. Rows of a tag have the same fields in all versions.
pub fn parts(tag: u64, row: &[u64]) -> Option<Parts<'_>> {
    let mut parts = Parts::default();
    let mut left = row;
    for field in fields(tag, Version::default())? {
        if matches!(field, Field::Presence) {
            continue;
        }
        let (&word, behind) = left.split_first().expect("a well-formed row has the fields of its tag");
        left = behind;
        match field {
            Field::Flags | Field::NoFlags | Field::LateFlags => parts.flags = word,
            Field::Index => parts.indices.push(word),
            Field::Numbers(_) | Field::Indices => {
                let (list, behind) = left.split_at(word as usize);
                parts.lists.push(list);
                left = behind;
            }
            Field::LastByte | Field::LastVarint | Field::Presence => parts.last = word,
        }
    }
    Some(parts)
}
