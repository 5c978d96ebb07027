//! Comparisons of many generated inputs: in batches on all cores, as many as the gate makes or the
//! environment asks for.

use crate::generator::Random;
use crate::held_calls::{Call, Counts, HeldCalls};
use std::io::{self, Write};
use std::sync::atomic::{AtomicU64, Ordering};
use std::{env, thread};

/// Inputs from one state of the generator, so that the inputs do not depend on the number of
/// threads.
const BATCH: u64 = 500;

/// A number from the environment in decimal digits, or the gate's.
pub fn setting(name: &str, gate: u64) -> u64 {
    match env::var(name) {
        Ok(text) => text
            .parse()
            .unwrap_or_else(|_| panic!("{name} must be a whole number, not {text}")),
        Err(_) => gate,
    }
}

/// Prints a line that the test harness does not hold back.
pub fn say(line: &str) {
    writeln!(io::stdout(), "{line}").expect("standard output");
}

/// Makes so many comparisons, in whole batches, on all cores. Gives how often each call gave each
/// answer.
pub fn compare_in_threads(
    comparisons: u64,
    seed: u64,
    compare: impl Fn(&mut HeldCalls, &mut Random) + Sync,
) -> Counts {
    let batches = comparisons.div_ceil(BATCH);
    let next = AtomicU64::new(0);
    let mut counts = Counts::default();
    thread::scope(|scope| {
        let workers: Vec<_> = (0..thread::available_parallelism().map_or(1, usize::from))
            .map(|_| scope.spawn(|| compare_batches(&next, batches, seed, &compare)))
            .collect();
        for worker in workers {
            counts.merge(&worker.join().expect("a difference"));
        }
    });
    counts
}

/// Takes batches until there are none left.
fn compare_batches(
    next: &AtomicU64,
    batches: u64,
    seed: u64,
    compare: impl Fn(&mut HeldCalls, &mut Random),
) -> Counts {
    let mut held_calls = HeldCalls::new();
    loop {
        let batch = next.fetch_add(1, Ordering::Relaxed);
        if batch >= batches {
            return held_calls.given;
        }
        let mut random = Random::new(Random::new(seed ^ batch.rotate_left(32)).word());
        for _ in 0..BATCH {
            compare(&mut held_calls, &mut random);
        }
    }
}

/// Between two and three fifths of what the call accepted is of edition 2.
pub fn about_half_in_either_edition(counts: &Counts, call: Call) {
    let [of_1, of_2] = [1, 2].map(|edition| counts.of_edition(edition, call, 0));
    let fifth = (of_1 + of_2) / 5;
    assert!(
        (2 * fifth..=3 * fifth).contains(&of_2),
        "{call:?} accepted {of_1} of edition 1 and {of_2} of edition 2"
    );
}
