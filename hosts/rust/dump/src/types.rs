//! The names of types. A name holds those of the types that it refers to, which have to stand before it.

use plain::fields::{parts, FUNC, GATHER_SCATTER_VIEW, PARTITION_VIEW, POINTER, STRIDED_VIEW, TENSOR_VIEW, TILE};

use crate::sheet::Sheet;
use crate::{named, TooLong};

const DYNAMIC: i64 = i64::MIN;

const SCALARS: [&str; 12] =
    ["i1", "i8", "i16", "i32", "i64", "f16", "bf16", "f32", "tf32", "f64", "f8e4m3fn", "f8e5m2"];

fn joined(numbers: &[u64], between: &str, show: fn(u64) -> String) -> String {
    numbers.iter().map(|&number| show(number)).collect::<Vec<_>>().join(between)
}

fn i32s(numbers: &[u64], between: &str) -> String {
    joined(numbers, between, |number| (number as u32 as i32).to_string())
}

fn i64s(numbers: &[u64], between: &str) -> String {
    joined(numbers, between, |number| (number as i64).to_string())
}

/// Numbers of which one means that it is not known.
fn sizes(numbers: &[u64], between: &str) -> String {
    joined(numbers, between, |number| match number as i64 {
        DYNAMIC => "?".to_owned(),
        size => size.to_string(),
    })
}

fn tile(dims: &[u64], element: &str) -> String {
    match i64s(dims, "x") {
        dims if dims.is_empty() => format!("tile<{element}>"),
        dims => format!("tile<{dims}x{element}>"),
    }
}

/// The names of a list of types, which together may be long.
fn name_list(indices: &[u64], names: &[String], limit: usize) -> Result<String, TooLong> {
    let mut list = String::new();
    for (i, &index) in indices.iter().enumerate() {
        list.push_str(if i == 0 { "" } else { ", " });
        list.push_str(named(names, index));
        if list.len() > limit {
            return Err(TooLong);
        }
    }
    Ok(list)
}

/// The name of a tag without fields.
fn scalar(tag: u64) -> &'static str {
    match tag {
        17 => "token",
        18 => "f8e8m0fnu",
        19 => "f4e2m1fn",
        22 => "i4",
        0x82 => "f8e5m3fnu",
        tag => SCALARS[tag as usize],
    }
}

/// The name of a row; `names` are those before it.
fn name(row: &[u64], names: &[String], limit: usize) -> Result<String, TooLong> {
    let Some((&tag, fields)) = row.split_first() else { return Ok("<read error>".to_owned()) };
    let Some(parts) = parts(tag, fields) else { return Ok(format!("<unknown type tag {tag}>")) };
    let lists = &parts.lists;
    let of = |i: usize| named(names, parts.indices[i]);
    let last = |name: &str| if parts.flags & 1 != 0 { format!(", {name}={}", parts.last) } else { String::new() };
    Ok(match tag {
        POINTER => format!("ptr<{}{}>", of(0), last("ptr_attr")),
        TILE => tile(lists[0], of(0)),
        TENSOR_VIEW => {
            let (shape, strides) = (sizes(lists[0], "x"), sizes(lists[1], ","));
            format!("tensor_view<{shape}x{}, strides=[{strides}]{}>", of(0), last("ptr_attr"))
        }
        PARTITION_VIEW => format!("partition_view<tile=({}), tv={}{}>", i32s(lists[0], "x"), of(0), last("padding")),
        FUNC => format!("({}) -> ({})", name_list(lists[0], names, limit)?, name_list(lists[1], names, limit)?),
        GATHER_SCATTER_VIEW => {
            let (shape, view, sparse) = (i32s(lists[0], "x"), of(0), parts.indices[1]);
            format!("gather_scatter_view<tile=({shape}), tv={view}, sparse_dim={sparse}{}>", last("padding"))
        }
        STRIDED_VIEW => {
            let (shape, strides, map) = (i32s(lists[0], "x"), i32s(lists[1], ","), i32s(lists[2], ","));
            let (view, padding) = (of(0), last("padding"));
            format!("strided_view<tile=({shape}), traversal_strides=[{strides}], tv={view}, dim_map=[{map}]{padding}>")
        }
        tag => scalar(tag).to_owned(),
    })
}

/// The names of all types, if they are not too long together.
pub fn names(sheet: &Sheet, limit: usize) -> Result<Vec<String>, TooLong> {
    let mut names = Vec::new();
    let mut size = 0;
    for row in sheet.types() {
        let name = name(row, &names, limit)?;
        size += name.len();
        if size > limit {
            return Err(TooLong);
        }
        names.push(name);
    }
    Ok(names)
}
