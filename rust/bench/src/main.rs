//! Times the library beside its peers, all in one run, and prints ratios: how many times as long the library takes.

mod peers;
mod scans;
mod strings;

use std::time::{Duration, Instant};
use strlib::StrPtr;

/// The shortest of many timed calls, after some that warm up; at least 30 calls and a fifth of a second.
fn best(mut call: impl FnMut()) -> Duration {
    for _ in 0..3 {
        call();
    }
    let mut least = Duration::MAX;
    let mut spent = Duration::ZERO;
    let mut calls = 0;
    while calls < 30 || spent < Duration::from_millis(200) {
        let from = Instant::now();
        call();
        let took = from.elapsed();
        least = least.min(took);
        spent += took;
        calls += 1;
    }
    least
}

/// A string that fills its room.
fn full(start: usize, length: usize) -> StrPtr {
    StrPtr::new(start, length, length)
}

/// One row of the table.
fn row(what: &str, peer: &str, ours: Duration, theirs: Duration) {
    let ratio = ours.as_secs_f64() / theirs.as_secs_f64();
    println!("| {what} | {peer} | {ratio:.2} |");
}

fn main() {
    println!("| the library | beside | times as long |");
    println!("|---|---|---|");
    scans::all();
    strings::all();
}
