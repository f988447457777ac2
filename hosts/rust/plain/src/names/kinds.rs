//! What the name of each kind of type consists of.

use super::text::Text;
use crate::fields::{FUNC, GATHER_SCATTER_VIEW, PARTITION_VIEW, POINTER, STRIDED_VIEW, TENSOR_VIEW, TILE};
use crate::refusal::Stop;

/// The name of a tag without fields.
fn scalar(tag: u64) -> &'static [u8] {
    match tag {
        0 => b"i1",
        1 => b"i8",
        2 => b"i16",
        3 => b"i32",
        4 => b"i64",
        5 => b"f16",
        6 => b"bf16",
        7 => b"f32",
        8 => b"tf32",
        9 => b"f64",
        10 => b"f8e4m3fn",
        11 => b"f8e5m2",
        17 => b"token",
        18 => b"f8e8m0fnu",
        19 => b"f4e2m1fn",
        22 => b"i4",
        0x82 => b"f8e5m3fnu",
        tag => unreachable!("no well-formed row has the tag {tag}"),
    }
}

/// The fields of a row that are not taken yet. It is well-formed, so that they are all there.
struct Fields<'a>(&'a [u64]);

impl<'a> Fields<'a> {
    fn word(&mut self) -> u64 {
        let (&word, left) = self.0.split_first().expect("a well-formed row has the fields of its tag");
        self.0 = left;
        word
    }

    /// A count and as many words.
    fn list(&mut self) -> &'a [u64] {
        let count = self.word() as usize;
        let (list, left) = self.0.split_at(count);
        self.0 = left;
        list
    }
}

/// What stands behind the type that a row names, before the last field.
enum More<'a> {
    Nothing,
    Strides(&'a [u64]),
    SparseDim(u64),
    DimMap(&'a [u64]),
}

/// All that stands behind it. The last field is there if bit 0 of the flags is set.
pub struct Tail<'a> {
    more: More<'a>,
    flags: u64,
    last: (&'static [u8], u64),
}

impl Tail<'_> {
    /// A row that names a type and ends there.
    const END: Self = Self { more: More::Nothing, flags: 0, last: (b"", 0) };

    fn write(&self, text: &mut impl Text) -> Result<(), Stop> {
        match self.more {
            More::Nothing => {}
            More::Strides(strides) => {
                text.bytes(b", strides=[")?;
                text.joined(strides, b",", Text::dimension)?;
                text.bytes(b"]")?;
            }
            More::SparseDim(dimension) => {
                text.bytes(b", sparse_dim=")?;
                text.decimal(dimension)?;
            }
            More::DimMap(dimensions) => {
                text.bytes(b", dim_map=[")?;
                text.joined(dimensions, b",", Text::i32)?;
                text.bytes(b"]")?;
            }
        }
        if self.flags & 1 != 0 {
            let (name, value) = self.last;
            text.bytes(name)?;
            text.decimal(value)?;
        }
        text.bytes(b">")
    }
}

const ATTRIBUTE: &[u8] = b", ptr_attr=";
const PADDING: &[u8] = b", padding=";

/// Writes what stands before the type that a row names. Gives its index, and what stands behind it.
fn head<'a>(tag: u64, mut row: Fields<'a>, text: &mut impl Text) -> Result<(u64, Tail<'a>), Stop> {
    match tag {
        POINTER => {
            let (flags, element, attribute) = (row.word(), row.word(), row.word());
            text.bytes(b"ptr<")?;
            Ok((element, Tail { more: More::Nothing, flags, last: (ATTRIBUTE, attribute) }))
        }
        TILE => {
            let (element, shape) = (row.word(), row.list());
            text.bytes(b"tile<")?;
            text.joined(shape, b"x", Text::i64)?;
            if !shape.is_empty() {
                text.bytes(b"x")?;
            }
            Ok((element, Tail::END))
        }
        TENSOR_VIEW => {
            let (flags, element, shape, strides) = (row.word(), row.word(), row.list(), row.list());
            text.bytes(b"tensor_view<")?;
            text.joined(shape, b"x", Text::dimension)?;
            text.bytes(b"x")?;
            Ok((element, Tail { more: More::Strides(strides), flags, last: (ATTRIBUTE, row.word()) }))
        }
        tag => view_head(tag, row, text),
    }
}

/// The same for the views of a tensor view.
fn view_head<'a>(tag: u64, mut row: Fields<'a>, text: &mut impl Text) -> Result<(u64, Tail<'a>), Stop> {
    let (flags, shape) = (row.word(), row.list());
    text.bytes(match tag {
        PARTITION_VIEW => b"partition_view<tile=(",
        GATHER_SCATTER_VIEW => b"gather_scatter_view<tile=(",
        _ => b"strided_view<tile=(",
    })?;
    text.joined(shape, b"x", Text::i32)?;
    if tag == STRIDED_VIEW {
        text.bytes(b"), traversal_strides=[")?;
        text.joined(row.list(), b",", Text::i32)?;
        text.bytes(b"], tv=")?;
    } else {
        text.bytes(b"), tv=")?;
    }
    let view = row.word();
    let more = match tag {
        GATHER_SCATTER_VIEW => More::SparseDim(row.word()),
        STRIDED_VIEW => More::DimMap(row.list()),
        _ => {
            row.list();
            More::Nothing
        }
    };
    Ok((view, Tail { more, flags, last: (PADDING, row.word()) }))
}

/// The lists of a function, as far as they are still to be written.
pub struct Lists<'a> {
    left: &'a [u64],
    /// The results, as long as the inputs are written.
    results: Option<&'a [u64]>,
    first: bool,
}

impl Lists<'_> {
    fn up_to_the_next(&mut self, text: &mut impl Text) -> Result<Option<u64>, Stop> {
        loop {
            if let Some((&index, left)) = self.left.split_first() {
                if !self.first {
                    text.bytes(b", ")?;
                }
                (self.left, self.first) = (left, false);
                return Ok(Some(index));
            }
            let Some(results) = self.results.take() else { return text.bytes(b")").map(|()| None) };
            text.bytes(b") -> (")?;
            (self.left, self.first) = (results, true);
        }
    }
}

/// The name of a row, as far as it is still to be written.
pub enum Name<'a> {
    Whole(&'a [u64]),
    Tail(Tail<'a>),
    Lists(Lists<'a>),
}

impl<'a> Name<'a> {
    /// A row behind its count.
    pub fn of(row: &'a [u64]) -> Self {
        Self::Whole(row)
    }

    /// Writes up to the next type that is named here, and gives its index; without one, to the end.
    pub fn up_to_the_next(&mut self, text: &mut impl Text) -> Result<Option<u64>, Stop> {
        match self {
            Self::Whole(row) => {
                let row = *row;
                self.begin(row, text)
            }
            Self::Tail(tail) => tail.write(text).map(|()| None),
            Self::Lists(lists) => lists.up_to_the_next(text),
        }
    }

    fn begin(&mut self, row: &'a [u64], text: &mut impl Text) -> Result<Option<u64>, Stop> {
        let mut fields = Fields(row);
        match fields.word() {
            FUNC => {
                text.bytes(b"(")?;
                let mut lists = Lists { left: fields.list(), results: Some(fields.list()), first: true };
                let first = lists.up_to_the_next(text);
                *self = Self::Lists(lists);
                first
            }
            tag @ (POINTER | TILE | TENSOR_VIEW | PARTITION_VIEW | GATHER_SCATTER_VIEW | STRIDED_VIEW) => {
                let (index, tail) = head(tag, fields, text)?;
                *self = Self::Tail(tail);
                Ok(Some(index))
            }
            tag => text.bytes(scalar(tag)).map(|()| None),
        }
    }
}
