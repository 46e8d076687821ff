//! Scans, by the original.

use crate::telling;
use compare::seeded::Seeded;
use lexer_dfa::AsciiRun;

/// Equal answers, and the front part handed back is the input itself.
fn same(run: AsciiRun, theirs: oracle::AsciiRun, input: &[u8]) {
    let expected = oracle::scan(theirs, input).map(|scan| (scan.bytes, scan.found_exit));
    let length = run.scan_length(input);
    let told = || format!("{run:?} over {input:?}");
    assert_eq!(length.map(|scan| (scan.bytes, scan.found_exit)), expected, "{}", told());
    let front = run.scan(input);
    assert_eq!(front.map(<[u8]>::len), expected.map(|(bytes, _)| bytes), "{}", told());
    assert!(front.is_none_or(|front| front.as_ptr() == input.as_ptr()), "{}", told());
}

fn both(words: &[u32]) -> (AsciiRun, oracle::AsciiRun) {
    let ours = AsciiRun::from_words(words).expect("the words of a run");
    let (theirs, _) = oracle::read_run(words).expect("the words of a run");
    (ours, theirs)
}

/// Runs of every kind over inputs of 0 to 300 bytes, all alike but for one byte that ends the run,
/// at every place, or for none.
pub fn every_exit() -> usize {
    const LONGEST: usize = 300;
    const FILLS: [u8; 6] = [48, 65, 127, 128, 200, 255];
    const STOPS: [u8; 9] = [0, 10, 34, 58, 92, 126, 127, 128, 255];
    let mut cases = 0;
    for words in telling::RUNS {
        let (ours, theirs) = both(words);
        let ends_at = |byte| oracle::scan(theirs, &[byte]).is_some_and(|scan| scan.found_exit);
        for fill in FILLS {
            let mut input = [fill; LONGEST];
            for length in 0..=LONGEST {
                same(ours, theirs, &input[..length]);
                cases += 1;
            }
            if ends_at(fill) {
                continue;
            }
            for stop in STOPS.into_iter().filter(|&stop| ends_at(stop)) {
                for place in 0..LONGEST {
                    input[place] = stop;
                    for length in place + 1..=LONGEST {
                        same(ours, theirs, &input[..length]);
                        cases += 1;
                    }
                    input[place] = fill;
                }
            }
        }
    }
    cases
}

/// Seeded runs over seeded bytes.
pub fn seeded() -> usize {
    const SCANS: usize = 300_000;
    let mut from = Seeded::new(6);
    let mut input = [0; 200];
    for _ in 0..SCANS {
        let exits = from.word() & 0x7F7F_7F00;
        let count = 1 + from.below(4);
        let ranges = compare::seeded::range_words(&from.ranges(count));
        let (ours, theirs) = match from.below(5) {
            0 => both(&[2 | exits & 0xFF00]),
            1 => both(&[3 | exits & 0x00FF_FF00]),
            2 => both(&[4 | exits]),
            _ => both(&ranges),
        };
        let length = from.below(input.len() + 1);
        // Few or many different bytes: long runs are met as well as short ones.
        let (first, few) = (from.below(256), 1 + from.below(60));
        for byte in &mut input[..length] {
            *byte = (first + from.below(few)) as u8;
        }
        same(ours, theirs, &input[..length]);
    }
    SCANS
}
