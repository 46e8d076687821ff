//! The class of ranges, by the original.

use compare::seeded::{Seeded, range_words};
use lexer_dfa::class;

fn same(ranges: &[(u8, u8)]) {
    use lexer_dfa::AsciiRangeClass as Ours;
    use oracle::AsciiRangeClass as Theirs;

    let words = range_words(ranges);
    let theirs = match oracle::class(&words).expect("the original reads good ranges") {
        Theirs::Whitespace => Ours::Whitespace,
        Theirs::Number => Ours::Number,
        Theirs::Identifier => Ours::Identifier,
        Theirs::Other => Ours::Other,
    };
    assert_eq!(class(&words), Ok(theirs), "{ranges:?}");
}

pub fn every_range() -> usize {
    let mut cases = 0;
    for low in 0..128 {
        for high in low..128 {
            same(&[(low, high)]);
            cases += 1;
        }
    }
    cases
}

pub fn every_pair() -> usize {
    let mut cases = 0;
    for low in 0..128 {
        for high in low..128 {
            for next_low in high + 2..128 {
                for next_high in next_low..128 {
                    same(&[(low, high), (next_low, next_high)]);
                    cases += 1;
                }
            }
        }
    }
    cases
}

/// Seeded over all of ASCII, and over the bounds of the classes, where more than "other" is met.
pub fn more_ranges() -> usize {
    const TELLING: [(u8, u8); 12] = [
        (9, 10),
        (12, 13),
        (32, 32),
        (36, 36),
        (39, 39),
        (48, 57),
        (65, 70),
        (71, 90),
        (95, 95),
        (97, 102),
        (103, 122),
        (11, 11),
    ];
    let mut from = Seeded::new(2);
    for _ in 0..200_000 {
        for count in [3, 4] {
            same(&from.ranges(count));
        }
    }
    let mut cases = 400_000;
    for bits in 0_usize..1 << TELLING.len() {
        let mut chosen: Vec<(u8, u8)> = (0..TELLING.len())
            .filter(|place| bits >> place & 1 == 1)
            .map(|place| TELLING[place])
            .collect();
        chosen.sort_unstable();
        // Neighbours that touch are one range.
        chosen.dedup_by(|next, last| {
            let touch = last.1 + 1 == next.0;
            if touch {
                last.1 = next.1;
            }
            touch
        });
        if (1..=4).contains(&chosen.len()) {
            same(&chosen);
            cases += 1;
        }
    }
    cases
}
