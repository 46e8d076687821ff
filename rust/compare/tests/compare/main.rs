//! Holds the proved library to the original and to the plain reading of document 01, and what the
//! programs `tableshow` and `tableread` print to a plain rendering.
//!
//!     cargo test --release [-p compare] [-- WORD]
//!
//! Each check prints one line: how many cases it had and how long they took, or why it was not
//! run. A word runs only the checks whose names have it.

mod byte;
mod coverage;
mod decode;
mod encode;
mod examples;
mod lists;
#[cfg(not(no_oracle))]
mod live;
mod lookup;
mod pools;
mod refusals;
mod rooms;
mod rows;
mod samples;
mod segments;
mod show;
mod tables;
mod telling;

use std::sync::Mutex;
use std::sync::atomic::{AtomicUsize, Ordering::Relaxed};
use std::thread;
use std::time::Instant;

/// A check ends in a panic where something differs, else with the number of its cases.
type Check = fn() -> usize;

/// A check that needs the original; without it, the reason why it is not run.
#[cfg(not(no_oracle))]
macro_rules! live {
    ($($check:ident)::+) => {
        Ok(live::$($check)::+)
    };
}
#[cfg(no_oracle)]
macro_rules! live {
    ($($check:ident)::+) => {
        Err(compare::no_original())
    };
}

fn checks() -> Vec<(&'static str, Result<Check, String>)> {
    vec![
        ("examples: document 01's, by the original", live!(examples::original)),
        ("examples: document 01's, by the library", Ok(examples::library)),
        ("class_of_byte: all bytes, by Rust's own", Ok(byte::every_byte)),
        ("class: every range, by the original", live!(class::every_range)),
        ("class: every pair of ranges, by the original", live!(class::every_pair)),
        ("class: three and four ranges, by the original", live!(class::more_ranges)),
        ("class: damaged words, by the plain reading", Ok(refusals::class_of)),
        ("classify: ranges over a grid, by the original", live!(classify::grid)),
        ("classify: up to three exits, by the original", live!(classify::exits)),
        ("classify: seeded rows, by the original", live!(classify::seeded)),
        ("classify: lengths, by the plain reading", Ok(refusals::classify)),
        ("read_run: telling words, by the original", live!(read_run::telling_words)),
        ("read_run: telling words, by the plain reading", Ok(refusals::read_run)),
        ("read_run: cuts and places, by the plain reading", Ok(refusals::read_run_cut)),
        ("scan: every length and exit, by the original", live!(scan::every_exit)),
        ("scan: seeded runs, by the original", live!(scan::seeded)),
        ("scan: wrong words, by the plain reading", Ok(refusals::scan_words)),
        ("decode: document 01's examples", Ok(decode::examples)),
        ("decode: seeded tables, by the original", live!(decode::seeded)),
        ("decode: seeded tables, by the plain reading", Ok(decode::seeded)),
        ("decode: each word damaged, by the original", live!(decode::each_word_damaged)),
        ("decode: each word damaged, by the plain reading", Ok(decode::each_word_damaged)),
        ("decode: broken rules, by the original", live!(decode::broken_rules)),
        ("decode: broken rules, by the plain reading", Ok(decode::broken_rules)),
        ("decode: broken items, by the original", live!(decode::broken_items)),
        ("decode: broken items, by the plain reading", Ok(decode::broken_items)),
        ("decode: broken in a crowd, by the original", live!(decode::broken_crowds)),
        ("decode: broken in a crowd, by the plain reading", Ok(decode::broken_crowds)),
        ("decode: crowded sections, by the original", live!(decode::crowded)),
        ("decode: crowded sections, by the plain reading", Ok(decode::crowded)),
        ("decode: every short list, by the original", live!(decode::short_lists)),
        ("decode: every short list, by the plain reading", Ok(decode::short_lists)),
        ("decode: every short section, by the original", live!(decode::sections)),
        ("decode: every short section, by the plain reading", Ok(decode::sections)),
        ("decode: rooms and lengths, by the plain reading", Ok(decode::rooms_and_lengths)),
        ("decode: past the limit, by the original", live!(decode::past_the_limit)),
        ("decode: a table's own room, by the plain reading", Ok(decode::owned)),
        ("encode: seeded tables, by the original", live!(encode::seeded)),
        ("encode: crowded sections, by the original", live!(encode::crowded)),
        ("encode: strange rooms, by the plain reading", Ok(encode::strange)),
        ("encode: every output, by the plain reading", Ok(encode::outputs)),
        ("encode: a table's own words, by the plain reading", Ok(encode::owned)),
        ("lookup: seeded tables, by the original", live!(lookup::seeded)),
        ("lookup: samples and crowded tables, by the original", live!(lookup::samples)),
        ("lookup: strange rooms, by the plain reading", Ok(lookup::strange)),
        ("coverage: every point, by the original", live!(coverage::every_point)),
        ("coverage: seeded tables, by the plain reading", Ok(coverage::seeded)),
        ("coverage: strange rooms, by the plain reading", Ok(coverage::strange)),
        ("segments: seeded lists, by the original", live!(segments::seeded)),
        ("segments: every small list, by the original", live!(segments::every_small)),
        ("segments: every short list, by the plain reading", Ok(segments::short_lists)),
        ("segments: every short record, by the plain reading", Ok(segments::short_records)),
        ("segments: seeded lists, by the plain reading", Ok(segments::seeded)),
        ("segments: limits, by the plain reading", Ok(segments::limits)),
        ("segments: short buffers, by the plain reading", Ok(segments::short_buffers)),
        ("rows: seeded lists, by the original", live!(rows::seeded)),
        ("rows: seeded lists, by the plain reading", Ok(rows::seeded)),
        ("rows: short buffers, by the plain reading", Ok(rows::short_buffers)),
        ("rows: every point, by the plain reading", Ok(rows::every_point)),
        ("pools: seeded rows, by the original", live!(pools::seeded)),
        ("pools: seeded pools, by the plain reading", Ok(pools::seeded)),
        ("pools: every small pool, by the plain reading", Ok(pools::small_pools)),
        ("samples: what stands in samples/", Ok(samples::are_written)),
        ("show: pages of seeded tables, by plain rendering", program("tableshow", show::seeded)),
        ("show: pages of damaged inputs, by plain rendering", program("tableshow", show::damaged)),
        ("show: lines of tableread, by plain rendering", program("tableread", show::lines)),
        ("record: the samples of replay, by the original", sample()),
    ]
}

/// Where the sample of a program stands.
fn sample_of(program: &str) -> String {
    format!("{}/../../crates/{program}/stdin", env!("CARGO_MANIFEST_DIR"))
}

fn sample() -> Result<Check, String> {
    for program in ["replay_runs", "replay_lookups", "replay_rows", "replay_forms"] {
        if !std::path::Path::new(&sample_of(program)).exists() {
            return Err(format!("crates/{program}/stdin is not there"));
        }
    }
    live!(sample::is_recorded)
}

/// A check that runs a program.
fn program(name: &str, check: Check) -> Result<Check, String> {
    if !std::path::Path::new(&show::program(name)).exists() {
        return Err(format!("crates/{name}/out/{name} is not there (./run {name})"));
    }
    Ok(check)
}

/// Runs one check, and gives the line that tells of it.
fn line(name: &str, check: &Result<Check, String>) -> String {
    match check {
        Ok(check) => {
            let start = Instant::now();
            let cases = check();
            let seconds = start.elapsed().as_secs_f64();
            format!("{name:<50} {cases:>9} cases {seconds:>6.2} s")
        }
        Err(why) => format!("{name:<50} NOT RUN: {why}"),
    }
}

fn main() {
    let words: Vec<String> = std::env::args().skip(1).collect();
    let asked = |name: &str| {
        let mut words = words.iter().filter(|word| !word.starts_with('-')).peekable();
        words.peek().is_none() || words.any(|word| name.contains(word.as_str()))
    };
    let checks: Vec<_> = checks().into_iter().filter(|(name, _)| asked(name)).collect();
    let not_run = checks.iter().filter(|(_, check)| check.is_err()).count();

    // Each processor takes the next check; a line is printed when those before it are.
    let next = AtomicUsize::new(0);
    let lines = Mutex::new((0, vec![None; checks.len()]));
    let work = || {
        loop {
            let place = next.fetch_add(1, Relaxed);
            let Some((name, check)) = checks.get(place) else { break };
            let said = line(name, check);
            let (printed, lines) = &mut *lines.lock().expect("no check holds it");
            lines[place] = Some(said);
            while let Some(Some(said)) = lines.get(*printed) {
                println!("{said}");
                *printed += 1;
            }
        }
    };
    println!();
    thread::scope(|scope| {
        for _ in 0..thread::available_parallelism().map_or(1, usize::from) {
            scope.spawn(work);
        }
    });
    println!("\ncompare: {} checks hold, {not_run} not run\n", checks.len() - not_run);
}
