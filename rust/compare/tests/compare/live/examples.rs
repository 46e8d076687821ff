//! The original, as completed, gives document 01's examples: it is the right oracle.

use crate::examples::{SCANS, rows};
use oracle::{CompiledLexerDfa, IntervalSet, LexerTransition, Pools};

const TAG: u32 = 0x4C44_0001;
const NONE: u32 = u32::MAX;

pub fn original() -> usize {
    runs() + tables() + segments() + split_and_merged()
}

fn runs() -> usize {
    for (row, words) in rows() {
        assert_eq!(oracle::run_words(oracle::classify(&row, 7)), words);
    }
    for (words, input, expected) in SCANS {
        let (run, _) = oracle::read_run(words).expect("the words of a run");
        let scan = oracle::scan(run, input);
        assert_eq!(scan.map(|scan| (scan.bytes, scan.found_exit)), expected);
    }
    rows().len() + SCANS.len()
}

/// The empty table, cut and with a word too many; the table that is given to `tableread`.
fn tables() -> usize {
    let words = [TAG, 0, 0, 0, 0, 0, 0, 0, 0, 0];
    for (length, accepted) in [(9, true), (8, false), (10, false), (0, false)] {
        let table = CompiledLexerDfa::from_serialized(&words[..length]);
        assert_eq!(table.is_some(), accepted, "{length} words");
    }
    let words =
        [&[TAG, 1, 0, 1, 0, 0, 65535, NONE, 1, 1, 1][..], &[0; 64], &[1, 0, 0, 1, NONE, 0, 0]]
            .concat();
    let table = CompiledLexerDfa::from_serialized(&words).expect("a table");
    assert_eq!((words.len(), table.state_count()), (82, 1));
    assert_eq!(table.serialize(), words);
    assert_eq!((table.mode_start(0), table.mode_start(-1)), (Some(0), None));
    assert_eq!((table.char_target(0, 48), table.char_target(0, -1)), (0, 65535));
    5
}

fn segments() -> usize {
    let listed = |pairs: &[(i32, i32)]| IntervalSet { listed: pairs.to_vec() };
    let set = |pairs| LexerTransition::Set { set: listed(pairs) };
    let not = |pairs| LexerTransition::NotSet { set: listed(pairs) };
    let all = [(0, 1_114_111)];

    let sets = [set(&[(48, 57)]), set(&[(48, 48), (97, 122)])];
    assert_eq!(oracle::segments(&sets), [(48, 48), (49, 57), (58, 96), (97, 122)]);
    assert_eq!(oracle::masks(&sets), [3, 1, 0, 2]);
    assert_eq!(oracle::segments(&[not(&[(-5, 3)])]), [(4, 1_114_111)]);
    assert_eq!(oracle::segments(&[not(&[])]), all);
    assert_eq!(oracle::segments(&[LexerTransition::Wildcard]), all);
    // An inverted range holds nothing and keeps its bit.
    let list = [LexerTransition::Range { start: 9, stop: 7 }, LexerTransition::Atom { label: 48 }];
    assert_eq!((oracle::segments(&list), oracle::masks(&list)), (vec![(48, 48)], vec![2]));
    5
}

/// 100..200 and 201..300, both to 3; pools give equal rows one place.
fn split_and_merged() -> usize {
    let (ascii, wide) = oracle::split(&[(100, 200, 3), (201, 300, 3)]);
    assert!((0..128).all(|symbol| (ascii[symbol] == 3) == (symbol >= 100)));
    assert_eq!(wide, [(128, 300, 3)]);
    assert_eq!(oracle::merge(&[(100, 200, 3), (201, 300, 3)]), [(100, 300, 3)]);
    let mut pools = Pools::default();
    assert_eq!([ascii, [0; 128], ascii].map(|row| pools.intern_ascii(row)), [0, 1, 0]);
    assert_eq!([&wide[..], &[], &wide].map(|row| pools.intern_wide(row)), [0, 1, 0]);
    4
}
