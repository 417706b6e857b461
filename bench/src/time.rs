//! Time of both sides of a row, in one run: batches of either in turn.

use crate::both::{Both, TIMES};
use crate::called::Which;
use crate::script::Row;
use std::time::{Duration, Instant};

/// How many batches of each side there are.
const BATCHES: usize = 2000;
/// A row of more words fills a batch with fewer calls.
const MANY_WORDS: usize = 64;
/// Calls of the original that take less a batch cannot be told from empty ones.
const LEAST: Duration = Duration::from_nanos(30);

/// The shortest batch of each side.
struct Shortest {
    original: Duration,
    ours: Duration,
}

/// How often as long ours takes as the original. Of the shortest batch of either is
/// taken off the shortest one that makes empty calls of the same signatures, on the
/// same side: the loop, the arguments, what is read of the answer, and the clock.
pub fn ratio(both: &mut Both, row: &Row) -> Option<f64> {
    let times = if row.words.len() > MANY_WORDS {
        1
    } else {
        TIMES
    };
    let unknown = || Shortest {
        original: Duration::MAX,
        ours: Duration::MAX,
    };
    let (mut empty, mut driver) = (unknown(), unknown());
    for _ in 0..BATCHES {
        for (which, shortest) in [(Which::Empty, &mut empty), (Which::Driver, &mut driver)] {
            both.set(row);
            both.call(which);
            let original = took(|| both.run_original(row, times));
            let ours = took(|| both.run_ours(row, times));
            shortest.original = shortest.original.min(original);
            shortest.ours = shortest.ours.min(ours);
        }
    }
    let original = driver.original.saturating_sub(empty.original);
    let ours = driver.ours.saturating_sub(empty.ours);
    (original >= LEAST).then(|| ours.as_secs_f64() / original.as_secs_f64())
}

fn took(run: impl FnOnce()) -> Duration {
    let start = Instant::now();
    run();
    start.elapsed()
}
