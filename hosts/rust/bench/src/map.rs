//! The map of vectors of map.cpp.

use boundary::Answer;

/// What C++ holds.
#[repr(C)]
struct Opaque([u8; 0]);

extern "C" {
    fn map_new() -> *mut Opaque;
    fn map_delete(map: *mut Opaque);
    fn map_put(map: *mut Opaque, instance: u64, file: *const u8, file_len: usize) -> Answer;
    fn map_fetch(map: *const Opaque, instance: u64, index: u64) -> Answer;
}

pub struct Map(*mut Opaque);

impl Map {
    pub fn new() -> Self {
        // SAFETY: the call takes nothing, and what it gives is ours alone.
        Self(unsafe { map_new() })
    }

    /// Answers what measuring the file does.
    pub fn put(&mut self, instance: u64, file: &[u8]) -> Answer {
        // SAFETY: the map is ours alone; the pointer and the length are those of a slice.
        unsafe { map_put(self.0, instance, file.as_ptr(), file.len()) }
    }

    pub fn fetch(&self, instance: u64, index: u64) -> Answer {
        // SAFETY: nobody changes the map until the call returns.
        unsafe { map_fetch(self.0, instance, index) }
    }
}

impl Drop for Map {
    fn drop(&mut self) {
        // SAFETY: the map came from `map_new`, and nobody uses it afterwards.
        unsafe { map_delete(self.0) }
    }
}
