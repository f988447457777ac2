//! Caches of files: a put beside copying and measuring, a fetch beside the view of a constant, and both beside a map of
//! vectors in C++. All slots are taken.

use boundary::{Answer, Cache, CACHE, OWNER_BYTES, SESSION};

use crate::inputs;
use crate::map::Map;
use crate::numbers::words;
use crate::timing::{row, times, Row};

const COPY: &str = "memcpy and measure";
const VIEW: &str = "constant";
const MAP: &str = "C++ map of vectors";
/// At most so much of what they are held against.
const PUT: Option<f64> = Some(1.15);
const FETCH: Option<f64> = Some(1.1);

/// A file that is put and fetched.
struct Named {
    name: &'static str,
    file: Vec<u8>,
    /// The constant that is fetched.
    index: u64,
    calls: usize,
    /// How the instances are numbered.
    numbers: &'static [Numbers],
}

/// What is said of instance numbers, and so many of them.
type Numbers = (&'static str, fn(usize) -> Vec<u64>);

const IN_A_ROW: Numbers = ("numbers in a row", |slots| (1..=slots as u64).collect());
const ANY: Numbers = ("any numbers", words);

/// Slots have as many bytes as the file has, or twice as many, in whole lines of a processor's cache.
fn slot_size(file: &[u8], twice: bool) -> usize {
    (file.len() << u32::from(twice)).next_multiple_of(64)
}

/// A cache whose slots all hold the file, slot k by the instance of that place.
struct Full<'n> {
    named: &'n Named,
    library: Cache,
    size: usize,
    instances: Vec<u64>,
    cache: Vec<u8>,
    owners: Vec<u8>,
}

impl<'n> Full<'n> {
    fn new(named: &'n Named, library: Cache, size: usize, instances: Vec<u64>) -> Self {
        let (cache, owners) = (vec![1; library.slots * size], vec![0; library.slots * OWNER_BYTES]);
        let mut full = Self { named, library, size, instances, cache, owners };
        for slot in 0..library.slots {
            assert_eq!(full.put(slot), Answer::accepted(slot as u64, 0), "a file of the bench is not kept");
        }
        full
    }

    fn put(&mut self, slot: usize) -> Answer {
        self.library.put(&mut self.cache[..], &mut self.owners[..], self.instances[slot], &self.named.file[..])
    }

    /// The place in the slot.
    fn fetch(&self, slot: usize) -> Answer {
        let answer = self.library.fetch(&self.cache[..], &self.owners[..], self.instances[slot], self.named.index);
        Answer { first: answer.first - (slot * self.size) as u64, ..answer }
    }

    fn slot(&self, slot: usize) -> &[u8] {
        &self.cache[slot * self.size..][..self.named.file.len()]
    }
}

/// The same bytes at the same place of another buffer, after measuring them.
fn put_beside_copy(what: String, goal: Option<f64>, full: &mut Full, slot: usize) -> Row {
    let (file, calls) = (&full.named.file, full.named.calls);
    let (mut copy, at) = (vec![1; full.cache.len()], slot * full.size);
    let theirs = || {
        let measured = boundary::measure(file);
        copy[at..at + file.len()].copy_from_slice(file);
        std::hint::black_box(&mut copy);
        measured.refusal
    };
    let measured = row((what, COPY), goal, calls, times(calls, || full.put(slot).refusal), times(calls, theirs));
    assert!(full.slot(slot) == &copy[at..at + file.len()], "the two sides wrote other bytes");
    measured
}

/// The view of the same bytes.
fn fetch_beside_view(what: String, full: &Full, slot: usize) -> Row {
    let Named { index, calls, .. } = *full.named;
    let theirs = || boundary::constant(full.slot(slot), index);
    row((what, VIEW), FETCH, calls, times(calls, || full.fetch(slot)), times(calls, theirs))
}

/// The slot in the middle.
fn beside_map(named: &Named, library: Cache) -> Vec<Row> {
    let mut full = Full::new(named, library, slot_size(&named.file, false), words(library.slots));
    let (slots, slot) = (library.slots, library.slots / 2);
    let instance = full.instances[slot];
    let Named { name, ref file, index, calls, .. } = *named;
    let mut map = Map::new();
    for &instance in &full.instances {
        assert_eq!(map.put(instance, file).refusal, 0, "a file of the bench is refused");
    }
    let put = row(
        (format!("{name} put, {slots} slots"), MAP),
        None,
        calls,
        times(calls, || full.put(slot).refusal),
        times(calls, || map.put(instance, file).refusal),
    );
    let fetch = row(
        (format!("{name} fetched, {slots} slots"), MAP),
        None,
        calls,
        times(calls, || full.fetch(slot)),
        times(calls, || map.fetch(instance, index)),
    );
    vec![put, fetch]
}

/// The slot in the middle and the last.
fn places(named: &Named, library: Cache) -> Vec<Row> {
    let mut rows = Vec::new();
    for (numbers, instances) in named.numbers {
        let mut full = Full::new(named, library, slot_size(&named.file, false), instances(library.slots));
        for slot in [library.slots / 2, library.slots - 1] {
            let which = format!("slot {slot} of {}, {numbers}", library.slots);
            rows.push(put_beside_copy(format!("{} put, {which}", named.name), PUT, &mut full, slot));
            rows.push(fetch_beside_view(format!("{} fetched, {which}", named.name), &full, slot));
        }
    }
    rows
}

/// Slots of twice the size, of which a put clears half.
fn half_empty(named: &Named) -> Row {
    let mut full = Full::new(named, SESSION, slot_size(&named.file, true), words(SESSION.slots));
    let what = format!("{} put, {} slots of twice its size", named.name, SESSION.slots);
    put_beside_copy(what, None, &mut full, SESSION.slots / 2)
}

/// Beside 1 MiB it does not matter how instances are numbered.
pub fn all() -> Vec<Row> {
    let (kernel, profile) = (inputs::kernel().file, inputs::profile().file);
    let files = [
        Named { name: "2 KiB kernel", file: kernel, index: 3, calls: 1000, numbers: &[IN_A_ROW, ANY] },
        Named { name: "1 MiB profile", file: profile, index: 0, calls: 20, numbers: &[ANY] },
    ];
    let of = |rows: fn(&Named, Cache) -> Vec<Row>| {
        files
            .iter()
            .flat_map(|named| [CACHE, SESSION].map(|library| rows(named, library)).concat())
            .collect::<Vec<Row>>()
    };
    [of(places), files.iter().map(half_empty).collect(), of(beside_map)].concat()
}
