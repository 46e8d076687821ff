//! Words that tell right runs from wrong ones: every kind with bytes at and beside each bound.

use compare::seeded::{self, Seeded};

/// First words: low byte 0 to 8, the other bytes from a telling few.
pub fn first_words() -> impl Iterator<Item = u32> {
    const BYTES: [u32; 11] = [0, 1, 2, 3, 4, 5, 6, 34, 127, 128, 255];
    (0..=8).flat_map(|kind| {
        BYTES.into_iter().flat_map(move |a| {
            BYTES.into_iter().flat_map(move |b| {
                BYTES.into_iter().map(move |c| kind | a << 8 | b << 16 | c << 24)
            })
        })
    })
}

/// Second and third words of kind 5: four places, each a good or bad range from a telling few.
pub fn range_words() -> impl Iterator<Item = [u32; 2]> {
    const PLACES: [u32; 20] = [
        range(0, 0),
        range(0, 1),
        range(0, 127),
        range(1, 0),
        range(1, 1),
        range(2, 2),
        range(2, 3),
        range(3, 3),
        range(4, 57),
        range(5, 5),
        range(48, 57),
        range(57, 48),
        range(58, 58),
        range(59, 126),
        range(126, 126),
        range(127, 127),
        range(127, 128),
        range(128, 128),
        range(129, 255),
        range(255, 255),
    ];
    let halves =
        || PLACES.into_iter().flat_map(|low| PLACES.into_iter().map(move |high| low | high << 16));
    halves().flat_map(move |second| halves().map(move |third| [second, third]))
}

const fn range(low: u32, high: u32) -> u32 {
    low | high << 8
}

/// First words of kind 5: every count to 6 and the highest, and an upper half that is not 0.
pub const FIRST_OF_RANGES: [u32; 11] = [
    5,
    5 | 1 << 8,
    5 | 2 << 8,
    5 | 3 << 8,
    5 | 4 << 8,
    5 | 5 << 8,
    5 | 6 << 8,
    5 | 255 << 8,
    5 | 1 << 8 | 1 << 16,
    5 | 2 << 8 | 1 << 24,
    5 | 4 << 8 | 255 << 16 | 255 << 24,
];

/// Every telling list of three words, and seeded ones near to good runs.
pub fn each_three(mut visit: impl FnMut(&[u32; 3])) -> usize {
    let mut cases = 0;
    let mut visit = |words| {
        visit(&words);
        cases += 1;
    };
    for first in first_words() {
        visit([first, 14640, 0]);
        visit([first, 0, 0]);
        visit([first, u32::MAX, first]);
    }
    for [second, third] in range_words() {
        for first in FIRST_OF_RANGES {
            visit([first, second, third]);
        }
    }
    let mut from = Seeded::new(5);
    for _ in 0..200_000 {
        let mut words = [0; 3].map(|_: u32| from.word());
        visit(words);
        words[0] = words[0] & 0x7F7F_7F00 | from.below(6) as u32;
        visit(words);
        let count = 1 + from.below(4);
        words = seeded::range_words(&from.ranges(count));
        visit(words);
        words[from.below(3)] ^= 1 << from.below(32);
        visit(words);
    }
    cases
}

/// The words of a run, each kind and bound once or more.
pub const RUNS: [&[u32]; 21] = [
    &[0],
    &[1],
    &[2],
    &[2 | 34 << 8],
    &[2 | 127 << 8],
    &[3 | 34 << 8 | 92 << 16],
    // Exits need not ascend, nor differ, to be read.
    &[3 | 92 << 8 | 34 << 16],
    &[3 | 34 << 8 | 34 << 16],
    &[3 | 127 << 16],
    &[4 | 10 << 8 | 34 << 16 | 92 << 24],
    &[4 | 92 << 8 | 34 << 16 | 10 << 24],
    &[4 | 125 << 8 | 126 << 16 | 127 << 24],
    &[5 | 1 << 8, range(48, 57), 0],
    &[5 | 1 << 8, range(0, 0), 0],
    &[5 | 1 << 8, range(127, 127), 0],
    &[5 | 1 << 8, range(0, 127), 0],
    &[5 | 2 << 8, range(9, 10) | range(32, 32) << 16, 0],
    &[5 | 2 << 8, range(48, 57) | range(97, 102) << 16, 0],
    &[5 | 3 << 8, range(48, 57) | range(65, 90) << 16, range(97, 122)],
    &[5 | 4 << 8, range(36, 36) | range(48, 57) << 16, range(65, 90) | range(97, 122) << 16],
    &[5 | 4 << 8, range(0, 0) | range(2, 2) << 16, range(4, 63) | range(65, 127) << 16],
];
