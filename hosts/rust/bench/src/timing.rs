//! Times two ways of doing the same work, in turns.

use std::time::{Duration, Instant};

const WARM_UP: usize = 3;
const FEWEST_ROUNDS: usize = 7;
pub const MOST_ROUNDS: usize = 31;
const ENOUGH: Duration = Duration::from_secs(3);

/// A line of the table: nanoseconds for each call, ours and those of what it is held against.
#[derive(Clone)]
pub struct Row {
    pub what: String,
    pub against: &'static str,
    pub ours: f64,
    pub theirs: f64,
    pub goal: Option<f64>,
}

impl Row {
    pub fn ratio(&self) -> f64 {
        self.ours / self.theirs
    }
}

fn nanoseconds<T>(work: &mut impl FnMut() -> T) -> (f64, T) {
    let start = Instant::now();
    let result = std::hint::black_box(work());
    (start.elapsed().as_nanos() as f64, result)
}

fn median(mut times: Vec<f64>) -> f64 {
    times.sort_by(f64::total_cmp);
    times[times.len() / 2]
}

/// Does `work` so often, and gives its last result.
pub fn times<T>(calls: usize, mut work: impl FnMut() -> T) -> impl FnMut() -> T {
    move || {
        (1..calls).for_each(|_| {
            std::hint::black_box(work());
        });
        work()
    }
}

/// Times `calls` calls of each side. Both sides give a value that tells what they did, and the two must agree. Work
/// that takes long is done in fewer rounds.
pub fn row<T: PartialEq>(
    (what, against): (impl Into<String>, &'static str),
    goal: Option<f64>,
    calls: usize,
    mut ours: impl FnMut() -> T,
    mut theirs: impl FnMut() -> T,
) -> Row {
    let what = what.into();
    let (mut our_times, mut their_times) = (Vec::new(), Vec::new());
    let begun = Instant::now();
    for round in 0..WARM_UP + MOST_ROUNDS {
        let (our_time, our_result) = nanoseconds(&mut ours);
        let (their_time, their_result) = nanoseconds(&mut theirs);
        assert!(our_result == their_result, "{what}: the two sides did not do the same");
        if round >= WARM_UP {
            our_times.push(our_time / calls as f64);
            their_times.push(their_time / calls as f64);
        }
        if our_times.len() >= FEWEST_ROUNDS && begun.elapsed() > ENOUGH {
            break;
        }
    }
    Row { what, against, ours: median(our_times), theirs: median(their_times), goal }
}
