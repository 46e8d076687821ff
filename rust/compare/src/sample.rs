//! The recorded samples: questions, and what the original answers. The programs `replay`,
//! `replay_lookups`, `replay_rows` and `replay_forms` read them from standard input and ask the proved
//! functions the same.
//!
//! In that of `replay` records stand one after the other, numbers little-endian; all seeded, so that every run writes
//! the same bytes.
//!
//! | record | fields |
//! |---|---|
//! | 1 classify | state u16, another target u16, 16 bytes of bits (symbol k loops where bit k % 8 of byte k / 8 is set), number of words u8, the run's words |
//! | 2 class | three words, answer u8: 0 whitespace, 1 number, 2 identifier, 3 other, 255 refused |
//! | 3 scan | number of words u8, words, input length u16, input, outcome u8: 0 refused, 1 no run, 2 ran; bytes u16, exit found u8 |
//! | 4 decode | number of words u8, words, refusal u8: 0 accepted; place u8, item u8, modes u8, states u8, words u8, check u32 |
//!
//! The check of a room of 16,384 numbers: with a sum that starts at 0, add each number to it in
//! turn and add up what the sum is after each, all in 32 bits.

mod decode;
mod forms;
mod lookups;
mod rows;

use crate::seeded::{Seeded, range_words};
use oracle::AsciiRangeClass;

const EACH: usize = 600;

/// The programs, and the sample of each.
pub fn all() -> [(&'static str, Vec<u8>); 4] {
    [
        ("replay_runs", bytes()),
        ("replay_lookups", lookups::bytes()),
        ("replay_rows", rows::bytes()),
        ("replay_forms", forms::bytes()),
    ]
}

/// The whole sample. `replay` reads fewer than 65,536 bytes.
fn bytes() -> Vec<u8> {
    let mut from = Seeded::new(1);
    let mut out = Vec::new();
    for _ in 0..EACH {
        classify(&mut from, &mut out);
        class(&mut from, &mut out);
        scan(&mut from, &mut out);
    }
    decode::records(&mut out);
    assert!(out.len() < 65_536);
    out
}

fn put_words(words: &[u32], out: &mut Vec<u8>) {
    for word in words {
        out.extend(word.to_le_bytes());
    }
}

/// The sum of the sums after each number, which tells numbers in another order apart.
fn check(numbers: &[u32]) -> u32 {
    let (mut sum, mut sums) = (0_u32, 0_u32);
    for &number in numbers {
        sum = sum.wrapping_add(number);
        sums = sums.wrapping_add(sum);
    }
    sums
}

fn classify(from: &mut Seeded, out: &mut Vec<u8>) {
    let (state, other) =
        from.pick(&[(0, 1), (1, 0), (7, 65535), (65533, 65534), (65534, 65535), (65535, 0)]);
    let loops = from.looping();
    let row = loops.map(|looping| if looping { state } else { other });
    let words = oracle::run_words(oracle::classify(&row, state));

    out.push(1);
    out.extend(state.to_le_bytes());
    out.extend(other.to_le_bytes());
    out.extend(loops.chunks(8).map(|eight| {
        let bits = eight.iter().enumerate();
        bits.fold(0, |byte, (bit, &looping)| byte | u8::from(looping) << bit)
    }));
    out.push(words.len() as u8);
    put_words(&words, out);
}

fn class(from: &mut Seeded, out: &mut Vec<u8>) {
    let words = three_words(from);
    let answer = match oracle::class(&words) {
        Some(AsciiRangeClass::Whitespace) => 0,
        Some(AsciiRangeClass::Number) => 1,
        Some(AsciiRangeClass::Identifier) => 2,
        Some(AsciiRangeClass::Other) => 3,
        None => 255,
    };
    out.push(2);
    put_words(&words, out);
    out.push(answer);
}

/// The words of a run of ranges, one in four with a bit changed.
fn three_words(from: &mut Seeded) -> [u32; 3] {
    const TELLING: [&[(u8, u8)]; 5] = [
        &[(9, 10), (12, 13), (32, 32)],
        &[(39, 39), (48, 57), (65, 70), (95, 95)],
        &[(36, 36), (65, 90), (95, 95), (97, 122)],
        &[(48, 57), (97, 102)],
        &[(48, 57), (65, 71)],
    ];
    let mut words = match from.below(3) {
        0 => {
            let count = 1 + from.below(4);
            range_words(&from.ranges(count))
        }
        // A part of the ranges that have a class of their own.
        _ => {
            let whole = from.pick(&TELLING);
            let start = from.below(whole.len());
            let end = start + 1 + from.below(whole.len() - start);
            range_words(&whole[start..end])
        }
    };
    if from.below(4) == 0 {
        words[from.below(3)] ^= 1 << from.below(32);
    }
    words
}

fn scan(from: &mut Seeded, out: &mut Vec<u8>) {
    let words = scan_words(from);
    let input = input(from, &words);
    let run = oracle::read_run(&words).filter(|&(_, read)| read == words.len());

    out.push(3);
    out.push(words.len() as u8);
    put_words(&words, out);
    out.extend((input.len() as u16).to_le_bytes());
    out.extend(&input);
    let (outcome, bytes, found_exit) = match run.map(|(run, _)| oracle::scan(run, &input)) {
        None => (0, 0, false),
        Some(None) => (1, 0, false),
        Some(Some(scan)) => (2, scan.bytes as u16, scan.found_exit),
    };
    out.push(outcome);
    out.extend(bytes.to_le_bytes());
    out.push(u8::from(found_exit));
}

/// Words for a scan: of every kind, some cut short, some with a word too many, some damaged.
fn scan_words(from: &mut Seeded) -> Vec<u32> {
    let kind = from.below(9) as u32;
    let exits = [34, 39, 92].map(|exit| {
        let any = from.below(128) as u32;
        from.pick(&[exit, any])
    });
    let mut words = match kind {
        0 | 1 => vec![kind],
        2 => vec![2 | exits[0] << 8],
        3 => vec![3 | exits[0] << 8 | exits[1] << 16],
        4 => vec![4 | exits[0] << 8 | exits[1] << 16 | exits[2] << 24],
        _ => three_words(from).to_vec(),
    };
    match from.below(12) {
        0 => words.truncate(2),
        1 if words.len() < 3 => words.push(0),
        2 => words[0] ^= 1 << from.below(32),
        _ => {}
    }
    words
}

/// Up to 40 bytes of which most go on with the run, some of 128 and above.
fn input(from: &mut Seeded, words: &[u32]) -> Vec<u8> {
    let telling = [words[0] >> 8, words[words.len() - 1] >> 8, words[0] >> 16];
    let telling = telling.map(|word| word as u8);
    let fill = match words[0] & 255 {
        5 => words.get(1).copied().unwrap_or_default() as u8,
        _ => from.pick(&[65, 48, 127, 128, 200, 255]),
    };
    let length = from.below(41);
    (0..length)
        .map(|_| match from.below(16) {
            0 => from.pick(&telling),
            1 => from.word() as u8,
            _ => fill,
        })
        .collect()
}
