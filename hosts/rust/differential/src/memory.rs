//! decoder.rs with a bound on its memory. It reserves by counts before it knows that there are as many items, and makes
//! names out of names. Asked in this process about such a file it would end it; so it is asked in a copy of the
//! process, which ends as soon as it holds more than the bound.

use std::alloc::{GlobalAlloc, Layout, System};
use std::os::unix::process::ExitStatusExt;
use std::process::ExitStatus;
use std::sync::atomic::{AtomicUsize, Ordering::Relaxed};

/// What decoder.rs may hold when it is asked so.
pub const MEMORY: u64 = 1 << 22;

const ANSWERED: i32 = 0;
const EXHAUSTED: i32 = 7;

/// What may still be taken, in the copy; there is no bound where it is `NO_BOUND`.
static LEFT: AtomicUsize = AtomicUsize::new(NO_BOUND);
const NO_BOUND: usize = usize::MAX;

struct Bounded;

#[global_allocator]
static ALLOCATOR: Bounded = Bounded;

extern "C" {
    fn fork() -> i32;
    fn waitpid(pid: i32, status: *mut i32, options: i32) -> i32;
    fn _exit(status: i32) -> !;
}

fn end(status: i32) -> ! {
    // SAFETY: the call takes a number; nothing runs after it in this process.
    unsafe { _exit(status) }
}

fn take(size: usize) {
    let left = LEFT.load(Relaxed);
    if left != NO_BOUND {
        match left.checked_sub(size) {
            Some(left) => LEFT.store(left, Relaxed),
            None => end(EXHAUSTED),
        }
    }
}

/// Nothing is given back that was not taken in the copy: decoder.rs frees what it made.
fn give(size: usize) {
    let left = LEFT.load(Relaxed);
    if left != NO_BOUND {
        LEFT.store(left + size, Relaxed);
    }
}

// SAFETY: all is done by the system's allocator; counting takes no memory and does not unwind.
unsafe impl GlobalAlloc for Bounded {
    unsafe fn alloc(&self, layout: Layout) -> *mut u8 {
        take(layout.size());
        // SAFETY: the caller's promises are those that the system's allocator asks for.
        unsafe { System.alloc(layout) }
    }

    unsafe fn alloc_zeroed(&self, layout: Layout) -> *mut u8 {
        take(layout.size());
        // SAFETY: as above.
        unsafe { System.alloc_zeroed(layout) }
    }

    unsafe fn realloc(&self, memory: *mut u8, layout: Layout, size: usize) -> *mut u8 {
        take(size);
        give(layout.size());
        // SAFETY: as above; the memory came from the system's allocator.
        unsafe { System.realloc(memory, layout, size) }
    }

    unsafe fn dealloc(&self, memory: *mut u8, layout: Layout) {
        give(layout.size());
        // SAFETY: as above.
        unsafe { System.dealloc(memory, layout) }
    }
}

/// Whether `work` takes more memory than `MEMORY`, tried in a copy of this process.
pub fn exhausts(work: impl FnOnce()) -> bool {
    // SAFETY: this process has one thread, so that its copy lacks nothing.
    let copy = unsafe { fork() };
    if copy == 0 {
        LEFT.store(MEMORY as usize, Relaxed);
        work();
        end(ANSWERED);
    }
    let mut status = 0;
    // SAFETY: the status is ours, and lives until the call returns.
    let ended = unsafe { waitpid(copy, &mut status, 0) };
    assert!(copy > 0 && ended == copy, "a copy of this process could not be made or waited for");
    match ExitStatus::from_raw(status).code() {
        Some(EXHAUSTED) => true,
        Some(ANSWERED) => false,
        _ => panic!("a copy of this process broke"),
    }
}
