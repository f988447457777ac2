//! The calls on a cache of files: one lent buffer in equal slots, and a lent table of who owns which.

use std::ptr::{null, null_mut};

use crate::Answer;

/// The bytes of an owner table's row: mark, instance and length, each a little-endian word.
pub const OWNER_BYTES: usize = 24;

type Put = unsafe extern "C" fn(*mut u8, usize, *mut u8, usize, u64, *const u8, usize) -> Answer;
type Fetch = unsafe extern "C" fn(*const u8, usize, *const u8, usize, u64, u64) -> Answer;
type Drop = unsafe extern "C" fn(*mut u8, usize, *mut u8, usize, u64) -> Answer;

/// The calls for so many slots. What they are lent is a slice, or `None`: a null pointer without bytes.
#[derive(Clone, Copy)]
pub struct Cache {
    pub slots: usize,
    put: Put,
    fetch: Fetch,
    drop: Drop,
}

macro_rules! caches {
    ($($name:ident = $slots:literal, $put:ident, $fetch:ident, $drop:ident;)*) => {
        extern "C" {
            $(
                fn $put(
                    cache: *mut u8,
                    cache_len: usize,
                    owners: *mut u8,
                    owners_len: usize,
                    instance: u64,
                    file: *const u8,
                    file_len: usize,
                ) -> Answer;
                fn $fetch(
                    cache: *const u8,
                    cache_len: usize,
                    owners: *const u8,
                    owners_len: usize,
                    instance: u64,
                    index: u64,
                ) -> Answer;
                fn $drop(
                    cache: *mut u8,
                    cache_len: usize,
                    owners: *mut u8,
                    owners_len: usize,
                    instance: u64,
                ) -> Answer;
            )*
        }
        $(pub const $name: Cache = Cache { slots: $slots, put: $put, fetch: $fetch, drop: $drop };)*
    };
}

caches! {
    CACHE = 16, tikomuci_cache_put, tikomuci_cache_fetch, tikomuci_cache_drop;
    SESSION = 64, tikomuci_session_put, tikomuci_session_fetch, tikomuci_session_drop;
}

fn shared(bytes: Option<&[u8]>) -> (*const u8, usize) {
    bytes.map_or((null(), 0), |bytes| (bytes.as_ptr(), bytes.len()))
}

fn own(bytes: Option<&mut [u8]>) -> (*mut u8, usize) {
    bytes.map_or((null_mut(), 0), |bytes| (bytes.as_mut_ptr(), bytes.len()))
}

impl Cache {
    /// Keeps a file for an instance.
    pub fn put<'l>(
        &self,
        cache: impl Into<Option<&'l mut [u8]>>,
        owners: impl Into<Option<&'l mut [u8]>>,
        instance: u64,
        file: impl Into<Option<&'l [u8]>>,
    ) -> Answer {
        let ((cache, cache_len), (owners, owners_len)) = (own(cache.into()), own(owners.into()));
        let (file, file_len) = shared(file.into());
        // SAFETY: the pointers and the lengths are those of slices, or null and 0. Both stores are ours alone until the
        // call returns, and a `&mut` slice overlaps no other.
        unsafe { (self.put)(cache, cache_len, owners, owners_len, instance, file, file_len) }
    }

    /// The place in the buffer of a constant of the file that an instance put.
    pub fn fetch<'l>(
        &self,
        cache: impl Into<Option<&'l [u8]>>,
        owners: impl Into<Option<&'l [u8]>>,
        instance: u64,
        index: u64,
    ) -> Answer {
        let ((cache, cache_len), (owners, owners_len)) = (shared(cache.into()), shared(owners.into()));
        // SAFETY: as above; nobody changes the stores until the call returns.
        unsafe { (self.fetch)(cache, cache_len, owners, owners_len, instance, index) }
    }

    /// Clears the slot of an instance and its row.
    pub fn drop<'l>(
        &self,
        cache: impl Into<Option<&'l mut [u8]>>,
        owners: impl Into<Option<&'l mut [u8]>>,
        instance: u64,
    ) -> Answer {
        let ((cache, cache_len), (owners, owners_len)) = (own(cache.into()), own(owners.into()));
        // SAFETY: as for `put`.
        unsafe { (self.drop)(cache, cache_len, owners, owners_len, instance) }
    }
}
