//! Classification of rows, by the original.

use compare::seeded::Seeded;
use lexer_dfa::AsciiRun;

/// States with another target, the highest numbers among them.
const STATES: [(u16, u16); 6] =
    [(0, 1), (7, 0), (300, 44), (65533, 65534), (65534, 65535), (65535, 0)];

fn same(row: &[u16; 128], state: u16) {
    let ours = AsciiRun::classify(row, state).expect("128 targets are taken");
    let theirs = oracle::run_words(oracle::classify(row, state));
    assert_eq!(ours.words(), theirs, "state {state}, row {row:?}");
}

/// Every set of no to five ranges whose bounds are cuts of a grid, and all but such a set. That is
/// runs of every kind, and none.
pub fn grid() -> usize {
    const CUTS: [usize; 18] =
        [0, 1, 2, 9, 14, 32, 47, 48, 57, 58, 65, 91, 97, 103, 123, 126, 127, 128];
    let mut cases = 0;
    // An even number of cuts bounds the ranges: the first to the second, the third to the fourth.
    for chosen in 0_u32..1 << CUTS.len() {
        let count = chosen.count_ones();
        if count % 2 == 1 || count > 10 {
            continue;
        }
        let (state, other) = STATES[cases % STATES.len()];
        let (mut row, mut complement) = ([other; 128], [state; 128]);
        let cuts: Vec<usize> = (0..CUTS.len())
            .filter(|place| chosen >> place & 1 == 1)
            .map(|place| CUTS[place])
            .collect();
        for pair in cuts.chunks(2) {
            row[pair[0]..pair[1]].fill(state);
            complement[pair[0]..pair[1]].fill(other);
        }
        same(&row, state);
        same(&complement, state);
        cases += 2;
    }
    cases
}

/// Every set of one to three exits among all symbols, and of four among some.
pub fn exits() -> usize {
    let mut cases = 0;
    let mut without = |exits: &[usize]| {
        let (state, other) = STATES[cases % STATES.len()];
        let mut row = [state; 128];
        for &exit in exits {
            row[exit] = other;
        }
        same(&row, state);
        cases += 1;
    };
    for a in 0..128 {
        without(&[a]);
        for b in a + 1..128 {
            without(&[a, b]);
            for c in b + 1..128 {
                without(&[a, b, c]);
                if c % 9 == 0 {
                    for d in (c + 1..128).step_by(13) {
                        without(&[a, b, c, d]);
                    }
                }
            }
        }
    }
    cases
}

/// Rows of every density: a few exits, a few ranges, or anything, over few targets or many.
pub fn seeded() -> usize {
    const ROWS: usize = 100_000;
    let mut from = Seeded::new(4);
    for _ in 0..ROWS {
        let any = from.word() as u16;
        let (state, _) = from.pick(&STATES);
        let state = from.pick(&[state, any]);
        let few = 1 + from.below(4) as u16;
        let dense = from.below(129);
        let mut row = [state; 128];
        let mut keep = true;
        // Symbols keep to their neighbour's choice the more often the longer the ranges are to be.
        let long = 1 + from.below(40);
        for target in &mut row {
            if from.below(long) == 0 {
                keep = from.below(128) < dense;
            }
            if !keep {
                let far = from.word() as u16;
                *target = from.pick(&[state.wrapping_add(few), far]);
            }
        }
        same(&row, state);
    }
    ROWS
}
