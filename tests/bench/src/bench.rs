//! Nanoseconds a call, library and plain Rust in turn; the least of many short batches.

use crate::cases::{cases, nodes, Call, Case};
use crate::library;
use crate::plain::ANSWER;
use std::time::Instant;

const SIZES: [usize; 3] = [5, 30, 256];
const BATCHES: usize = 150;
const BATCH: u32 = 8;

/// Targets: the ratio, and the library's nanoseconds at each size where there is a limit.
const RATIO: f64 = 1.05;
const LIMITS: [Option<f64>; 3] = [None, Some(5_000.0), Some(40_000.0)];

/// What one call takes, in nanoseconds.
#[derive(Clone, Copy)]
pub struct Times {
    pub library: f64,
    pub plain: f64,
}

pub fn bench() {
    let overhead = overhead();
    println!("nanoseconds a call, the clock's {overhead:.0} taken off");
    println!("! misses a target: ratio {RATIO}, under 5,000 ns at 30 nodes, under 40,000 at 256");
    println!(
        "{:<17} {:>5} {:>10} {:>10} {:>7}   {:>15} {:>15}",
        "command", "nodes", "library ns", "Rust ns", "ratio", "growth, library", "growth, Rust"
    );
    let mut missed = [0; 3];
    for case in cases() {
        let mut first = None;
        for (size, limit) in SIZES.into_iter().zip(LIMITS) {
            let store = case.store(size);
            let times =
                measure(&store, overhead, |work, into| call_library(&case, work, into), |work, into| case.call_plain(work, into));
            let first = *first.get_or_insert(times);
            let slow = limit.is_some_and(|limit| times.library >= limit);
            missed[0] += 1;
            missed[1] += usize::from(times.library / times.plain > RATIO);
            missed[2] += usize::from(slow);
            row(case.name, nodes(&store), times, first, slow);
        }
    }
    println!("of {} measurements {} miss the ratio and {} the nanoseconds", missed[0], missed[1], missed[2]);
}

fn row(name: &str, nodes: usize, times: Times, first: Times, slow: bool) {
    let ratio = times.library / times.plain;
    println!(
        "{name:<17} {nodes:>5} {:>9.0}{} {:>10.0} {ratio:>7.2}{} {:>15.2} {:>15.2}",
        times.library,
        if slow { "!" } else { " " },
        times.plain,
        if ratio > RATIO { " !" } else { "  " },
        times.library / first.library,
        times.plain / first.plain,
    );
}

/// What timing nothing takes.
pub fn overhead() -> f64 {
    let least = (0..2000).map(|_| Instant::now().elapsed()).min().unwrap_or_default();
    least.as_nanos() as f64
}

/// Batches of both in turn, each call on a fresh copy of the store and timed alone.
pub fn measure(
    store: &[u8],
    overhead: f64,
    mut ours: impl FnMut(&mut [u8], &mut [u8]) -> u32,
    mut theirs: impl FnMut(&mut [u8], &mut [u8]) -> u32,
) -> Times {
    let mut work = store.to_vec();
    let mut into = vec![0; ANSWER];
    let mut best = Times { library: f64::MAX, plain: f64::MAX };
    for _ in 0..BATCHES {
        let a = batch(store, &mut work, |work| ours(work, &mut into));
        best.library = best.library.min(a - overhead);
        let b = batch(store, &mut work, |work| theirs(work, &mut into));
        best.plain = best.plain.min(b - overhead);
    }
    best
}

fn batch(store: &[u8], work: &mut [u8], mut call: impl FnMut(&mut [u8]) -> u32) -> f64 {
    let mut nanoseconds = 0;
    for _ in 0..BATCH {
        work.copy_from_slice(store);
        let start = Instant::now();
        std::hint::black_box(call(std::hint::black_box(work)));
        nanoseconds += start.elapsed().as_nanos();
    }
    nanoseconds as f64 / f64::from(BATCH)
}

fn call_library(case: &Case, store: &mut [u8], into: &mut [u8]) -> u32 {
    match &case.call {
        Call::Setup(text) => library::setup(store, text),
        Call::Run(line) => library::run(store, line.as_bytes(), into),
        Call::FirstLine => library::listing(store, 0, into),
        Call::LastLine => library::listing(store, nodes(store) - 1, into),
    }
    .number
}

/// The least nanoseconds of two calls that leave what they work on as it was, in turns.
pub fn least(mut ours: impl FnMut() -> u64, mut theirs: impl FnMut() -> u64) -> (f64, f64) {
    let timed = |call: &mut dyn FnMut() -> u64| {
        let start = Instant::now();
        std::hint::black_box(call());
        start.elapsed().as_nanos() as f64
    };
    let mut best = (f64::MAX, f64::MAX);
    for _ in 0..20 * BATCHES {
        best.0 = best.0.min(timed(&mut ours));
        best.1 = best.1.min(timed(&mut theirs));
    }
    best
}
