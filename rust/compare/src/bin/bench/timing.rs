//! One line of the table: the time of a call on both sides.

use std::hint::black_box;
use std::time::Instant;

pub const ROUNDS: usize = 201;

/// Asks both sides the same questions, `calls` in a round, and prints the medians for one call.
pub fn compare<T, U>(
    name: &str,
    calls: usize,
    mut rust: impl FnMut(usize) -> T,
    mut ours: impl FnMut(usize) -> U,
) {
    let (mut rust_times, mut our_times) = (Vec::new(), Vec::new());
    for _ in 0..ROUNDS {
        rust_times.push(round(calls, &mut rust));
        our_times.push(round(calls, &mut ours));
    }
    let (rust, ours) = (median(rust_times), median(our_times));
    println!("| {name} | {rust:.1} | {ours:.1} | {:.2} |", ours / rust);
}

/// Prints the median of something that one side alone does.
pub fn alone<T>(name: &str, calls: usize, mut ours: impl FnMut(usize) -> T) {
    let times = (0..ROUNDS).map(|_| round(calls, &mut ours)).collect();
    println!("| {name} | | {:.1} | |", median(times));
}

/// Nanoseconds for one call.
fn round<T>(calls: usize, mut side: impl FnMut(usize) -> T) -> f64 {
    let start = Instant::now();
    for call in 0..calls {
        black_box(side(black_box(call)));
    }
    start.elapsed().as_nanos() as f64 / calls as f64
}

fn median(mut times: Vec<f64>) -> f64 {
    times.sort_by(f64::total_cmp);
    times[times.len() / 2]
}
