//! What decoder.rs makes of a file: a text, an error, or a panic.

use std::cell::Cell;
use std::panic::{catch_unwind, set_hook, take_hook, AssertUnwindSafe};
use std::sync::OnceLock;

use oracle::bytecode::decoder::{decode_bytecode, window};
use oracle::Error;

/// How decoder.rs breaks.
#[derive(Debug, Clone, Copy, PartialEq, Eq)]
pub enum Fault {
    /// A slice is taken that is not inside the data.
    Slice,
    /// A sum wraps, which is seen where overflow checks are on.
    Sum,
    /// A vector is reserved for more numbers than there can be.
    Capacity,
    Other,
}

#[derive(Debug, Clone, PartialEq, Eq)]
pub enum Rust {
    Text(String),
    /// An error, and the number that document 01 gives to it.
    Error(u64, String),
    Panic(Fault),
}

thread_local! {
    static ASKING: Cell<bool> = const { Cell::new(false) };
}

/// Keeps panics quiet while the Rust is asked; all others stay loud.
pub fn expect_panics() {
    let loud = take_hook();
    set_hook(Box::new(move |info| {
        if !ASKING.get() {
            loud(info);
        }
    }));
}

/// Its number, and its text.
fn numbered(error: Error) -> Rust {
    let Error::BytecodeWrite(message) = &error;
    let number = match message.as_str() {
        "producer string index out of range" => 7,
        "decode: debug attribute offsets out of range" | "decode: debug index offsets out of range" => 6,
        message if message.starts_with("decode: unknown debug attribute tag") => 9,
        _ => window::refusal(&error),
    };
    Rust::Error(number, message.clone())
}

fn fault(message: &str) -> Fault {
    if message.contains("capacity overflow") {
        Fault::Capacity
    } else if message.contains("out of range for slice") || message.starts_with("slice index starts at") {
        Fault::Slice
    } else if message.contains("attempt to add with overflow") {
        Fault::Sum
    } else {
        Fault::Other
    }
}

/// Does what may panic.
pub fn quietly<T>(work: impl FnOnce() -> T) -> std::thread::Result<T> {
    ASKING.set(true);
    let result = catch_unwind(AssertUnwindSafe(work));
    ASKING.set(false);
    result
}

/// Whether the Rust was compiled with overflow checks.
pub fn sums_are_checked() -> bool {
    static CHECKED: OnceLock<bool> = OnceLock::new();
    *CHECKED.get_or_init(|| quietly(|| window::Reader::at(&[], 1).remaining()).is_err())
}

/// How decoder.rs breaks where the end of a run of bytes wraps: at the sum, or where the slice is taken.
pub fn wrapping_end() -> Fault {
    if sums_are_checked() {
        Fault::Sum
    } else {
        Fault::Slice
    }
}

pub fn ask(file: &[u8]) -> Rust {
    match quietly(|| decode_bytecode(file)) {
        Ok(Ok(text)) => Rust::Text(text),
        Ok(Err(error)) => numbered(error),
        Err(payload) => {
            let text = payload.downcast_ref::<String>().map(String::as_str);
            Rust::Panic(fault(text.or(payload.downcast_ref::<&str>().copied()).unwrap_or("")))
        }
    }
}
