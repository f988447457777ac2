//! The text that decoder.rs's `decode_bytecode` makes of a file, made from the sheet, the pool and the presence of two
//! sections. It needs no Rust source, so that recorded texts can be replayed by a clone that stands alone. What no
//! accepted file has it shows as decoder.rs does, which takes some files that document 01 refuses.

mod debug;
mod sheet;
mod types;

use std::fmt::Write;

pub use sheet::Sheet;

const KERNEL: u64 = 2;
const HINTS: u64 = 4;

/// Sections that leave a line in the text though their tables are empty.
#[derive(Debug, Clone, Copy)]
pub struct Present {
    pub func: bool,
    pub debug: bool,
}

/// A text that grows past `limit`. Names of types hold the names of other types, so a short file can have a text that
/// no memory holds.
#[derive(Debug, Clone, Copy, PartialEq, Eq)]
pub struct TooLong;

/// A text that is written up to a limit.
struct Text {
    out: String,
    limit: usize,
}

impl Text {
    fn line(&mut self, line: std::fmt::Arguments) -> Result<(), TooLong> {
        writeln!(self.out, "{line}").expect("a string takes all that is written");
        if self.out.len() > self.limit {
            return Err(TooLong);
        }
        Ok(())
    }
}

/// The rows of a table that has a heading, and an empty line behind it.
fn listed<T: std::fmt::Display>(text: &mut Text, heading: &str, rows: &[T]) -> Result<(), TooLong> {
    if rows.is_empty() {
        return Ok(());
    }
    text.line(format_args!("=== {heading} ({}) ===", rows.len()))?;
    for (i, row) in rows.iter().enumerate() {
        text.line(format_args!("  [{i}] {row}"))?;
    }
    text.line(format_args!(""))
}

/// The name at an index that need not be inside.
fn named(names: &[String], index: u64) -> &str {
    usize::try_from(index).ok().and_then(|index| names.get(index)).map_or("?", String::as_str)
}

fn globals(text: &mut Text, sheet: &Sheet, strings: &[String], types: &[String]) -> Result<(), TooLong> {
    let globals = sheet.globals();
    if globals.is_empty() {
        return Ok(());
    }
    text.line(format_args!("=== Globals ({}) ===", globals.len()))?;
    for [name, of_type, constant, alignment, visibility, flag] in globals {
        let (name, of_type) = (named(strings, name), named(types, of_type));
        let suffix = if sheet.since(13, 3) {
            let visibility = ["public", "private"].get(visibility as usize).unwrap_or(&"unknown");
            format!(", {visibility}, constant={}", flag != 0)
        } else {
            String::new()
        };
        text.line(format_args!("  @{name} : {of_type} = const[{constant}], align {alignment}{suffix}"))?;
    }
    text.line(format_args!(""))
}

fn functions(text: &mut Text, sheet: &Sheet, strings: &[String], types: &[String]) -> Result<(), TooLong> {
    let functions = sheet.functions();
    text.line(format_args!("=== Functions ({}) ===", functions.len()))?;
    for [name, signature, flags, _location, size] in functions {
        let kind = if flags & KERNEL != 0 { "entry" } else { "func" };
        text.line(format_args!("  {kind} @{} : {}", named(strings, name), named(types, signature)))?;
        let hints = if flags & HINTS != 0 { "    [has optimization_hints]\n" } else { "" };
        text.line(format_args!("    body: {size} bytes, ~{size} ops\n{hints}"))?;
    }
    Ok(())
}

/// The text of a sheet and its pool, which have to be those of a file that was read.
pub fn text(words: &[u64], pool: &[u8], present: Present, limit: usize) -> Result<String, TooLong> {
    let sheet = Sheet::new(words, pool);
    let strings = sheet.strings();
    let types = types::names(&sheet, limit)?;
    let mut text = Text { out: String::new(), limit };
    text.line(format_args!("TileIR bytecode v{}\n", sheet.version()))?;
    let quoted: Vec<String> = strings.iter().map(|string| format!("{string:?}")).collect();
    listed(&mut text, "Strings", &quoted)?;
    if let Some(index) = sheet.producer() {
        text.line(format_args!("=== Producer ===\n  {}\n", quoted[index]))?;
    }
    listed(&mut text, "Types", &types)?;
    let constants: Vec<String> = sheet.constants().iter().map(|size| format!("{size} bytes")).collect();
    listed(&mut text, "Constants", &constants)?;
    globals(&mut text, &sheet, &strings, &types)?;
    if present.func {
        functions(&mut text, &sheet, &strings, &types)?;
    }
    if present.debug {
        debug::section(&mut text, &sheet, &strings)?;
    }
    Ok(text.out)
}
