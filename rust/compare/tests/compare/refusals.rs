//! What is refused, by number and place, and what is not: by the plain reading of document 01.

use crate::telling;
use compare::plain;
use compare::seeded::{Seeded, range_words};
use lexer_dfa::{AsciiRun, class, scan};

/// Classification takes 128 targets and no others.
pub fn classify() -> usize {
    let targets = [7; 1024];
    for length in 0..=targets.len() {
        for state in [0, 7, 65535] {
            let row = &targets[..length];
            let ours = AsciiRun::classify(row, state).map(|_| ());
            assert_eq!(ours, plain::row(row), "{length} targets");
        }
    }
    3 * (targets.len() + 1)
}

/// Class: good words with every bit changed in turn, words of other kinds, and other lengths.
pub fn class_of() -> usize {
    let mut cases = 0;
    let mut judged = |words: &[u32]| {
        assert_eq!(class(words).map(|_| ()), plain::three_words(words), "{words:?}");
        cases += 1;
    };
    let mut from = Seeded::new(3);
    for count in [1, 2, 3, 4].repeat(500) {
        let words = range_words(&from.ranges(count));
        judged(&words);
        for bit in 0..96 {
            let mut damaged = words;
            damaged[bit / 32] ^= 1 << (bit % 32);
            judged(&damaged);
        }
        let longer = [&words[..], &words[..]].concat();
        for length in 0..=6 {
            judged(&longer[..length]);
        }
    }
    for words in telling::RUNS {
        judged(words);
        judged(&[words, &[0, 0]].concat());
    }
    cases
}

fn judged_at(words: &[u32], at: usize) {
    let ours = AsciiRun::read(words, at);
    let read = plain::read_run(words, at).map(|length| (&words[at..at + length], at + length));
    match (&ours, read) {
        (Ok((run, next)), Ok(read)) => assert_eq!((run.words(), *next), read, "{words:?} at {at}"),
        (ours, read) => assert_eq!(ours.as_ref().err(), read.as_ref().err(), "{words:?} at {at}"),
    }
}

/// Runs read from telling words.
pub fn read_run() -> usize {
    telling::each_three(|words| judged_at(words, 0))
}

/// The same words behind others, cut after each word, and read at every place and past the end.
pub fn read_run_cut() -> usize {
    let mut cases = 0;
    let mut all_cuts = |words: &[u32]| {
        for length in 0..=words.len() {
            for at in (0..=length + 2).chain([usize::MAX - 2, usize::MAX]) {
                judged_at(&words[..length], at);
                cases += 1;
            }
        }
    };
    for first in telling::first_words() {
        all_cuts(&[first, 14640, 0, first]);
    }
    for run in telling::RUNS {
        for other in telling::RUNS {
            all_cuts(&[run, other, &[6], run].concat());
        }
    }
    cases
}

/// Scan: words that are not exactly one run's are refused, whatever the input.
pub fn scan_words() -> usize {
    let mut cases = 0;
    let mut judged = |words: &[u32]| {
        for input in [&b""[..], b"10 ply", &[255; 70]] {
            let ours = scan(words, input).map(|_| ());
            assert_eq!(ours, plain::one_run(words), "{words:?}");
            cases += 1;
        }
        assert_eq!(AsciiRun::from_words(words).map(|_| ()), plain::one_run(words), "{words:?}");
    };
    for first in telling::first_words() {
        for length in 0..=4 {
            judged(&[first, 14640, 0, 0][..length]);
        }
    }
    for [second, third] in telling::range_words() {
        judged(&[5 | 2 << 8, second, third]);
        judged(&[5 | 4 << 8, second, third]);
    }
    for run in telling::RUNS {
        for other in telling::RUNS {
            judged(&[run, other].concat());
        }
    }
    cases
}
