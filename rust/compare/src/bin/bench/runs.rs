//! Scans and classification.

use crate::timing::compare;
use compare::seeded::{Seeded, range_words};
use lexer_dfa::AsciiRun;
use std::hint::black_box;

// Out of line on both sides: ours is behind the C face anyway.
#[inline(never)]
fn rust_scan(run: oracle::AsciiRun, input: &[u8]) -> Option<oracle::AsciiRunScan> {
    oracle::scan(run, input)
}

#[inline(never)]
fn rust_classify(row: &[u16; 128], state: u16) -> oracle::AsciiRun {
    oracle::classify(row, state)
}

pub fn scans() {
    let ranges = [(48, 57), (65, 90), (97, 122), (36, 36)];
    let of_ranges = |count: usize| {
        let mut some = ranges[..count].to_vec();
        some.sort_unstable();
        range_words(&some).to_vec()
    };
    // A byte that each run passes over, 48, and one that ends it, 34 (any has none).
    let runs = [
        ("any", vec![1]),
        ("until one", vec![2 | 34 << 8]),
        ("until two", vec![3 | 34 << 8 | 42 << 16]),
        ("until three", vec![4 | 34 << 8 | 42 << 16 | 92 << 24]),
        ("one range", of_ranges(1)),
        ("two ranges", of_ranges(2)),
        ("three ranges", of_ranges(3)),
        ("four ranges", of_ranges(4)),
    ];
    for (name, words) in &runs {
        let ends = words[0] != 1;
        for longest in [8, 32, 128] {
            let inputs: Vec<Vec<u8>> = (0..=longest).map(|length| input(length, ends)).collect();
            let mut from = Seeded::new(7);
            let order: Vec<usize> = (0..2048).map(|_| from.below(longest + 1)).collect();
            let inputs: Vec<&[u8]> = order.iter().map(|&length| &inputs[length][..]).collect();
            scan(&format!("scan {name}, 0..{longest} bytes"), words, &inputs);
        }
        let long = input(65536, ends);
        scan(&format!("scan {name}, 64 KiB"), words, &[&long[..]; 4]);
    }
}

/// Bytes of which the run takes the first `length`: an exit stands there with more behind it, or
/// the input ends.
fn input(length: usize, ends: bool) -> Vec<u8> {
    let mut input = vec![48; length];
    if ends {
        input.push(34);
        input.extend([48; 256]);
    }
    input
}

fn scan(name: &str, words: &[u32], inputs: &[&[u8]]) {
    let (theirs, _) = oracle::read_run(words).expect("the words of a run");
    let ours = AsciiRun::from_words(words).expect("the words of a run");
    let rust = |call: usize| rust_scan(black_box(theirs), black_box(inputs[call]));
    let ours = |call: usize| black_box(&ours).scan_length(black_box(inputs[call]));
    for call in 0..inputs.len() {
        let (rust, ours) = (rust(call), ours(call));
        let (rust, ours) = (rust.map(|scan| scan.bytes), ours.map(|scan| scan.bytes));
        assert_eq!(ours, rust, "{name}");
    }
    compare(name, inputs.len(), rust, ours);
}

pub fn classifications() {
    let is_word = |symbol: u8| symbol.is_ascii_alphanumeric() || symbol == b'_';
    classify("any", |_| true);
    classify("until one", |symbol| symbol != 34);
    classify("until three", |symbol| !matches!(symbol, 10 | 34 | 92));
    classify("digits", |symbol| symbol.is_ascii_digit());
    classify("identifier, four ranges", is_word);
    classify("four ranges apart", |symbol| symbol % 32 < 16);
    classify("none, no loop", |_| false);
    classify("none, 64 ranges", |symbol| symbol % 2 == 0);
}

fn classify(name: &str, loops: impl Fn(u8) -> bool) {
    let row: [u16; 128] = std::array::from_fn(|symbol| if loops(symbol as u8) { 7 } else { 9 });
    let rust = |_| rust_classify(black_box(&row), black_box(7));
    let ours = |_| AsciiRun::classify(black_box(&row), black_box(7)).expect("128 targets");
    assert_eq!(ours(0).words(), oracle::run_words(rust(0)), "{name}");
    compare(&format!("classify {name}"), 512, rust, ours);
}
