//! The files that are read, viewed, written and kept, and whose types are named: a small kernel, many rows in every
//! table or of types alone, a function type with many inputs, and large constants.

use oracle::bytecode::TypeTag;

/// The tables of a file as they are lent, and the file that our writer makes of them.
pub struct Input {
    pub sheet: Vec<u8>,
    pub pool: Vec<u8>,
    pub file: Vec<u8>,
}

/// How many rows the tables have, and how many bytes the rows of the pool.
struct Sizes {
    strings: u64,
    types: u64,
    constants: u64,
    globals: u64,
    functions: u64,
    attributes: u64,
    lists: u64,
    string: u64,
    constant: u64,
    body: u64,
}

/// Where the tables begin in a sheet.
const CONTENTS_END: usize = 19;

/// A sheet that grows table by table, in the order of the contents.
#[derive(Default)]
struct Sheet {
    contents: Vec<u64>,
    words: Vec<u64>,
}

impl Sheet {
    /// A table with `count` rows; `row` gives the words of each.
    fn table<Row: AsRef<[u64]>>(&mut self, count: u64, row: impl Fn(u64) -> Row) {
        self.contents.extend([(CONTENTS_END + self.words.len()) as u64, count]);
        (0..count).for_each(|i| self.words.extend_from_slice(row(i).as_ref()));
    }

    /// The whole sheet as it is lent, for version 13.4 and with the first string as producer.
    fn lent(self, pool: u64) -> Vec<u8> {
        [13, 4, 0, 1, pool].into_iter().chain(self.contents).chain(self.words).flat_map(u64::to_le_bytes).collect()
    }
}

/// A row of a type says first how many words follow.
fn counted(mut row: Vec<u64>) -> Vec<u64> {
    row.insert(0, row.len() as u64);
    row
}

/// Types of five kinds in turn.
fn type_row(i: u64) -> Vec<u64> {
    counted(match i % 5 {
        0 => vec![TypeTag::F32 as u64],
        1 => vec![TypeTag::Pointer as u64, 0, i - 1, 0],
        2 => vec![TypeTag::Tile as u64, i - 2, 2, 64, 128],
        3 => vec![TypeTag::TensorView as u64, 0, i - 3, 2, 4096, 4096, 2, 4096, 1, 0],
        _ => vec![TypeTag::Func as u64, 2, i - 2, i - 3, 0],
    })
}

/// Bytes that differ from one to the next.
fn bytes(count: u64) -> Vec<u8> {
    (0..count).map(|i| (i.wrapping_mul(0x9E37_79B9_7F4A_7C15) >> 56) as u8).collect()
}

fn made(sizes: &Sizes) -> Input {
    made_of(sizes, type_row)
}

fn made_of(sizes: &Sizes, type_row: impl Fn(u64) -> Vec<u64>) -> Input {
    let mut sheet = Sheet::default();
    sheet.table(sizes.strings, |_| [sizes.string]);
    sheet.table(sizes.types, type_row);
    sheet.table(sizes.constants, |_| [sizes.constant]);
    sheet.table(sizes.globals, |i| [i, 0, i % sizes.constants, 16, 0, 1]);
    sheet.table(sizes.functions, |i| [i, 4, 2, 1, sizes.body]);
    sheet.table(sizes.attributes, |i| [4, 1, 0, i, 1, 0, 0]);
    sheet.table(sizes.lists, |i| [3, i, i + 1, i + 2]);
    let pool = sizes.strings * sizes.string + sizes.constants * sizes.constant + sizes.functions * sizes.body;
    let (sheet, pool) = (sheet.lent(pool), bytes(pool));
    let mut file = vec![0; boundary::image(&sheet).first as usize];
    assert_eq!(boundary::write(&sheet, &pool, &mut file).refusal, 0, "an input is not well-formed");
    Input { sheet, pool, file }
}

/// How many types the kernel has.
pub const KERNEL_TYPES: u64 = 15;

const KERNEL: Sizes = Sizes {
    strings: 16,
    types: KERNEL_TYPES,
    constants: 4,
    globals: 4,
    functions: 2,
    attributes: 24,
    lists: 2,
    string: 12,
    constant: 128,
    body: 320,
};

/// A kernel of about 2 KiB.
pub fn kernel() -> Input {
    made(&KERNEL)
}

/// The same kernel with a profile of 1 MiB as its only constant.
pub fn profile() -> Input {
    made(&Sizes { constants: 1, constant: 1 << 20, ..KERNEL })
}

/// So many rows in every table.
pub fn rows(count: u64) -> Input {
    made(&Sizes {
        strings: count,
        types: count,
        constants: count,
        globals: count,
        functions: count,
        attributes: count,
        lists: count,
        string: 12,
        constant: 16,
        body: 24,
    })
}

/// So many types, and no rows of another table but a string.
pub fn types(count: u64) -> Input {
    made(&Sizes { types: count, ..no_rows() })
}

/// A function type with so many inputs, which name 128 scalars in turn, those from `first` on, and no results.
pub fn function(first: u64, inputs: u64) -> Input {
    let scalars = first + 128;
    let named = |input: u64| first + input % 128;
    made_of(&Sizes { types: scalars + 1, ..no_rows() }, |i| {
        counted(if i < scalars {
            vec![TypeTag::F32 as u64]
        } else {
            [TypeTag::Func as u64, inputs].into_iter().chain((0..inputs).map(named)).chain([0]).collect()
        })
    })
}

/// 64 constants of 1 MiB.
pub fn constants() -> Input {
    made(&Sizes { constants: 64, constant: 1 << 20, types: 5, ..no_rows() })
}

fn no_rows() -> Sizes {
    Sizes {
        strings: 1,
        types: 0,
        constants: 0,
        globals: 0,
        functions: 0,
        attributes: 0,
        lists: 0,
        string: 12,
        constant: 0,
        body: 0,
    }
}
