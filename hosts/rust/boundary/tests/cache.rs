//! The caches of 16 and of 64 slots: a worked history, every refusal and its order, and what each call leaves as it
//! was. No Rust source is needed.

use std::fs;
use std::path::PathBuf;

use boundary::{Answer, Cache, ABSENT, CACHE, FULL, MAGIC, NO_SLOT, OWNER_BYTES, SESSION, SHEET, SHORT, STAGE_HEADER};

const CACHES: [Cache; 2] = [CACHE, SESSION];
const UNTOUCHED: u8 = 0xA5;
const ALL: u64 = u64::MAX;
const NO_MAGIC: Answer = Answer::refused_at(MAGIC, STAGE_HEADER);
const CUT: Answer = Answer::refused_at(SHORT, STAGE_HEADER);

/// Where the constant of `file` stands in it, and how many bytes stand around it.
const CONSTANT_AT: u64 = 30;
const AROUND: usize = 31;

/// A file of version 13.1 whose only constant is this one.
fn file(constant: &[u8]) -> Vec<u8> {
    let head = b"\x7FTileIR\0\x0D\x01\0\0\x04";
    let payload = [&b"\x01\xCB\xCB\xCB\xCB\xCB\xCB\xCB\0\0\0\0\0\0\0\0"[..], constant].concat();
    [&head[..], &[payload.len() as u8], &payload, &[0]].concat()
}

/// A file of so many bytes.
fn of_size(size: usize) -> Vec<u8> {
    file(&vec![b'z'; size - AROUND])
}

/// A buffer and an owner table that are lent together.
#[derive(Clone, Debug, PartialEq)]
struct Lent {
    cache: Vec<u8>,
    owners: Vec<u8>,
}

impl Lent {
    /// No row is taken, and the buffer has any bytes.
    fn empty(calls: Cache, slot: usize) -> Self {
        Self { cache: vec![UNTOUCHED; calls.slots * slot], owners: vec![0; calls.slots * OWNER_BYTES] }
    }

    /// All slots are taken, slot k by instance k, with files of so many bytes.
    fn full(calls: Cache, slot: usize, size: usize) -> Self {
        let mut lent = Self::empty(calls, slot);
        for k in 0..calls.slots as u64 {
            assert_eq!(lent.put(calls, k, &of_size(size)), Answer::accepted(k, 0));
        }
        lent
    }

    fn put(&mut self, calls: Cache, instance: u64, file: &[u8]) -> Answer {
        calls.put(&mut self.cache[..], &mut self.owners[..], instance, file)
    }

    fn fetch(&self, calls: Cache, instance: u64, index: u64) -> Answer {
        calls.fetch(&self.cache[..], &self.owners[..], instance, index)
    }

    fn drop(&mut self, calls: Cache, instance: u64) -> Answer {
        calls.drop(&mut self.cache[..], &mut self.owners[..], instance)
    }

    /// Does to a row what only a host would.
    fn set_row(&mut self, slot: usize, row: [u64; 3]) {
        let bytes: Vec<u8> = row.into_iter().flat_map(u64::to_le_bytes).collect();
        self.owners[slot * OWNER_BYTES..][..OWNER_BYTES].copy_from_slice(&bytes);
    }

    fn set_slot(&mut self, slot: usize, size: usize, bytes: &[u8]) {
        self.cache[slot * size..][..bytes.len()].copy_from_slice(bytes);
        self.cache[slot * size..][bytes.len()..size].fill(0);
    }

    /// The three calls of an instance are refused so, and change nothing.
    fn refuses(&mut self, calls: Cache, instance: u64, file: &[u8], wanted: [Answer; 3]) {
        let before = self.clone();
        assert_eq!(self.put(calls, instance, file), wanted[0], "put by {instance}");
        assert_eq!(self.fetch(calls, instance, 0), wanted[1], "fetch by {instance}");
        assert_eq!(self.drop(calls, instance), wanted[2], "drop by {instance}");
        assert!(*self == before, "a refused call changed something");
    }
}

/// A put takes the lowest free slot and no other, whatever number the instance has, and writes its whole row and slot.
#[test]
fn puts_and_drops_of_a_history() {
    for calls in CACHES {
        let (mut lent, mut wanted) = (Lent::empty(calls, 40), Lent::empty(calls, 40));
        for (k, (instance, constant)) in [(7, "abc"), (0, "of nought"), (ALL, "")].into_iter().enumerate() {
            let file = file(constant.as_bytes());
            assert_eq!(lent.put(calls, instance, &file), Answer::accepted(k as u64, 0));
            wanted.set_slot(k, 40, &file);
            wanted.set_row(k, [1, instance, file.len() as u64]);
            assert_eq!(lent, wanted);
        }
        assert_eq!(lent.put(calls, 0, &file(b"x")), Answer::accepted(1, 0));
        wanted.set_slot(1, 40, &file(b"x"));
        wanted.set_row(1, [1, 0, 32]);
        assert_eq!(lent, wanted);
        assert_eq!(lent.drop(calls, 7), Answer::accepted(0, 0));
        wanted.set_slot(0, 40, &[]);
        wanted.set_row(0, [0; 3]);
        assert_eq!(lent, wanted);
        assert_eq!(lent.put(calls, 8, &file(b"ghij")), Answer::accepted(0, 0));
        assert_eq!(lent.put(calls, 7, &file(b"back")), Answer::accepted(3, 0));
    }
}

/// A fetch answers the place in the buffer of the instance's own constant.
#[test]
fn fetches_of_a_history() {
    for calls in CACHES {
        let mut lent = Lent::empty(calls, 41);
        for (instance, constant) in [(7, "abc"), (0, "of nought"), (ALL, "")] {
            assert_eq!(lent.put(calls, instance, &file(constant.as_bytes())).refusal, 0);
        }
        for (slot, instance, constant) in [(0, 7, "abc"), (1, 0, "of nought"), (2, ALL, "")] {
            let at = slot * 41 + CONSTANT_AT;
            assert_eq!(lent.fetch(calls, instance, 0), Answer::accepted(at, constant.len() as u64));
            assert_eq!(lent.cache[at as usize..][..constant.len()], *constant.as_bytes());
            assert_eq!(lent.fetch(calls, instance, 1), Answer::refused(ABSENT));
            assert_eq!(lent.fetch(calls, instance, ALL), Answer::refused(ABSENT));
        }
        assert_eq!(lent.drop(calls, 0), Answer::accepted(1, 0));
        assert_eq!(lent.fetch(calls, 0, 0), Answer::refused(ABSENT));
        assert_eq!(lent.fetch(calls, ALL, 0), Answer::accepted(2 * 41 + CONSTANT_AT, 0));
    }
}

/// A file that fits exactly is kept; one byte more is 11, after the file's own refusal and before 18.
#[test]
fn files_and_slots_of_every_size() {
    for calls in CACHES {
        let mut full = Lent::full(calls, 40, 40);
        let absent = Answer::refused(ABSENT);
        full.refuses(calls, ALL, &of_size(40), [Answer::refused(NO_SLOT), absent, absent]);
        full.refuses(calls, ALL, &of_size(41), [Answer::refused(FULL), absent, absent]);
        full.refuses(calls, ALL, &[0; 41], [NO_MAGIC, absent, absent]);
        full.refuses(calls, ALL, &[0; 12], [NO_MAGIC, absent, absent]);
        full.refuses(calls, ALL, &[], [CUT, absent, absent]);
        let before = full.clone();
        for (file, wanted) in [(&of_size(41)[..], Answer::refused(FULL)), (&[0; 41], NO_MAGIC), (b"\x7FTile", CUT)] {
            assert_eq!(full.put(calls, 3, file), wanted);
            assert_eq!(full, before, "a refused put changed something");
        }
        assert_eq!(full.put(calls, 3, &of_size(31)), Answer::accepted(3, 0));
        assert_eq!(full.drop(calls, 5), Answer::accepted(5, 0));
        assert_eq!(full.put(calls, ALL, &of_size(40)), Answer::accepted(5, 0));
    }
}

/// Stores of other lengths are 12, before all else.
#[test]
fn stores_of_other_lengths() {
    for calls in CACHES {
        let whole = Lent::full(calls, 40, 33);
        let (cache, owners) = (whole.cache.len(), whole.owners.len());
        let lengths = [
            (cache - 1, owners),
            (cache + 1, owners),
            (1, owners),
            (cache, owners - 1),
            (cache, owners + 1),
            (cache, owners - OWNER_BYTES),
            (cache, owners + OWNER_BYTES),
            (cache, 0),
            (0, 0),
        ];
        for (cache, owners) in lengths {
            let mut lent = whole.clone();
            lent.cache.resize(cache, UNTOUCHED);
            lent.owners.resize(owners, 0);
            for instance in [3, ALL] {
                lent.refuses(calls, instance, &of_size(33), [Answer::refused(SHEET); 3]);
                lent.refuses(calls, instance, &[], [Answer::refused(SHEET); 3]);
            }
        }
    }
}

/// So are one instance in two taken rows, and a taken row that is longer than a slot; whoever calls.
#[test]
fn damaged_owner_tables() {
    for calls in CACHES {
        let last = calls.slots - 1;
        let whole = Lent::full(calls, 40, 33);
        for (slot, row) in [
            (last, [1, 0, 33]),
            (last, [ALL, 0, 0]),
            (0, [1 << 63, last as u64, 33]),
            (last, [1, last as u64, 41]),
            (0, [2, 0, ALL]),
        ] {
            let mut lent = whole.clone();
            lent.set_row(slot, row);
            for instance in [0, 1, last as u64, ALL] {
                lent.refuses(calls, instance, &of_size(33), [Answer::refused(SHEET); 3]);
                lent.refuses(calls, instance, &[0; 50], [Answer::refused(SHEET); 3]);
            }
        }
    }
}

/// Any mark but 0 is a taken row; of a free row no other word counts, and its slot is the lowest free one.
#[test]
fn marks_and_free_rows() {
    for calls in CACHES {
        let mut lent = Lent::full(calls, 40, 33);
        lent.set_row(1, [1 << 32, 1, 40]);
        lent.set_row(2, [0, 3, ALL]);
        lent.set_row(4, [0, 3, 41]);
        let mut wanted = lent.clone();
        assert_eq!(lent.fetch(calls, 3, 0), Answer::accepted(3 * 40 + CONSTANT_AT, 2));
        lent.refuses(calls, 2, &[], [CUT, Answer::refused(ABSENT), Answer::refused(ABSENT)]);
        assert_eq!(lent, wanted);
        assert_eq!(lent.put(calls, 1, &of_size(32)), Answer::accepted(1, 0));
        wanted.set_row(1, [1, 1, 32]);
        wanted.set_slot(1, 40, &of_size(32));
        assert_eq!(lent.put(calls, ALL, &of_size(34)), Answer::accepted(2, 0));
        wanted.set_row(2, [1, ALL, 34]);
        wanted.set_slot(2, 40, &of_size(34));
        assert_eq!(lent.drop(calls, 3), Answer::accepted(3, 0));
        wanted.set_row(3, [0; 3]);
        wanted.set_slot(3, 40, &[]);
        assert_eq!(lent, wanted);
    }
}

/// What a fetch judges is the kept length and no byte more, before the entry that is asked for. A drop clears the whole
/// slot.
#[test]
fn files_that_the_host_damaged() {
    for calls in CACHES {
        let mut lent = Lent::full(calls, 50, 33);
        lent.cache[2 * 50] = 0;
        lent.cache[3 * 50 + 33..4 * 50].fill(UNTOUCHED);
        lent.set_row(4, [1, 4, 11]);
        lent.set_row(5, [1, 5, 32]);
        lent.set_row(6, [1, 6, 0]);
        let before = lent.clone();
        for (instance, wanted) in [
            (2, NO_MAGIC),
            (3, Answer::accepted(3 * 50 + CONSTANT_AT, 2)),
            (4, CUT),
            (5, Answer::refused_at(SHORT, 2)),
            (6, CUT),
        ] {
            assert_eq!(lent.fetch(calls, instance, 0), wanted, "instance {instance}");
            let wanted = if wanted.refusal == 0 { Answer::refused(ABSENT) } else { wanted };
            assert_eq!(lent.fetch(calls, instance, 9), wanted, "instance {instance}");
        }
        assert_eq!(lent, before);
        assert_eq!(lent.drop(calls, 2), Answer::accepted(2, 0));
        assert_eq!(lent.drop(calls, 3), Answer::accepted(3, 0));
        assert_eq!(lent.cache[2 * 50..4 * 50], [0; 100]);
    }
}

/// A cache without bytes keeps nothing; its rows may still be taken, by files without bytes.
#[test]
fn empty_buffers_and_null_pointers() {
    for calls in CACHES {
        let mut lent = Lent::empty(calls, 0);
        let absent = Answer::refused(ABSENT);
        lent.refuses(calls, 0, &of_size(31), [Answer::refused(FULL), absent, absent]);
        lent.refuses(calls, 0, &[], [CUT, absent, absent]);
        lent.set_row(3, [1, 9, 0]);
        assert_eq!(lent.fetch(calls, 9, 0), CUT);
        let owners = &mut lent.owners[..];
        assert_eq!(calls.put(None, &mut *owners, 9, None), CUT);
        assert_eq!(calls.put(None, &mut *owners, 9, &of_size(31)[..]), Answer::refused(FULL));
        assert_eq!(calls.fetch(None, &*owners, 9, 0), CUT);
        assert_eq!(calls.fetch(None, &*owners, 8, 0), absent);
        assert_eq!(calls.drop(None, &mut *owners, 8), absent);
        assert_eq!(calls.drop(None, &mut *owners, 9), Answer::accepted(3, 0));
        assert_eq!(lent, Lent::empty(calls, 0));
        assert_eq!(calls.put(None, None, 9, None), Answer::refused(SHEET));
        assert_eq!(calls.fetch(None, None, 9, 0), Answer::refused(SHEET));
        assert_eq!(calls.drop(None, None, 9), Answer::refused(SHEET));
    }
}

/// The files of a folder of hosts/files, in any order.
fn kept(folder: &str) -> Vec<Vec<u8>> {
    let folder = PathBuf::from(concat!(env!("CARGO_MANIFEST_DIR"), "/../../files")).join(folder);
    let paths = fs::read_dir(folder).expect("the folder is there").map(|entry| entry.expect("an entry").path());
    let files = paths.filter(|path| path.extension().is_some_and(|extension| extension == "tileirbc"));
    files.map(|path| fs::read(path).expect("the file can be read")).collect()
}

/// Files of the genuine writer: each constant that an instance fetches is that of its own file, whatever else was put.
#[test]
fn files_of_the_genuine_writer() {
    let files = kept("");
    let slot = files.iter().map(Vec::len).max().expect("files are kept");
    let mut lent = Lent::empty(SESSION, slot);
    for (file, instance) in files.iter().zip(0..) {
        assert_eq!(lent.put(SESSION, instance, file), Answer::accepted(instance, 0));
    }
    for hints in kept("hints") {
        let absent = Answer::refused(ABSENT);
        lent.refuses(SESSION, ALL, &hints, [Answer::refused_at(10, 8), absent, absent]);
    }
    let mut constants = 0;
    for (file, instance) in files.iter().zip(0..) {
        let in_file = |index| boundary::constant(file, index);
        for (wanted, index) in (0..).map(in_file).take_while(|answer| answer.refusal == 0).zip(0..) {
            let fetched = lent.fetch(SESSION, instance, index);
            assert_eq!(fetched, Answer { first: wanted.first + instance * slot as u64, ..wanted });
            let bytes = |of: &[u8], at: Answer| of[at.first as usize..][..at.second as usize].to_vec();
            assert_eq!(bytes(&lent.cache, fetched), bytes(file, wanted));
            constants += 1;
        }
    }
    assert!(constants >= 100, "{constants} constants");
}
