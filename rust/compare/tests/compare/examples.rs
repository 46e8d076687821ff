//! Document 01's ply-sheet examples; those of tables stand with decoding.

use lexer_dfa::rows::{MASK_WORDS, SEGMENT_NUMBERS};
use lexer_dfa::{
    AsciiRun, AsciiRunScan, NO_CONTINUATION, RowBuilder, Transition, char_segments, list_bytes,
    scan, segment_mask_matrix,
};

/// Rows in which state 7 loops, and the words of their runs.
pub fn rows() -> Vec<([u16; 128], Vec<u32>)> {
    vec![
        (looping_on(|symbol| (48..=57).contains(&symbol)), vec![261, 14640, 0]),
        (looping_on(|symbol| symbol != 34), vec![8706]),
        (looping_on(|_| false), vec![0]),
        (looping_on(|symbol| symbol % 20 == 3 && symbol < 100), vec![0]),
    ]
}

fn looping_on(symbols: impl Fn(usize) -> bool) -> [u16; 128] {
    std::array::from_fn(|symbol| if symbols(symbol) { 7 } else { 0 })
}

/// A run's words, an input, and how far the run goes and whether it meets an exit.
pub type Scan = (&'static [u32], &'static [u8], Option<(usize, bool)>);

pub const SCANS: [Scan; 4] = [
    (&[261, 14640, 0], b"10 ply", Some((2, true))),
    (&[261, 14640, 0], b"10", Some((2, false))),
    (&[8706], &[200, 65, 34], Some((2, true))),
    (&[0], b"10 ply", None),
];

pub fn library() -> usize {
    for (row, words) in rows() {
        let run = AsciiRun::classify(&row, 7).expect("128 targets are taken");
        assert_eq!(run.words(), words);
    }
    for (words, input, expected) in SCANS {
        let expected = expected.map(|(bytes, found_exit)| AsciiRunScan { bytes, found_exit });
        assert_eq!(scan(words, input), Ok(expected));
    }
    rows().len() + SCANS.len() + segments() + built()
}

/// The segments of a list, low and high each.
fn segments_of(list: &[Transition]) -> Vec<u32> {
    let bytes = list_bytes(list).expect("few pairs");
    let mut segments = [7; SEGMENT_NUMBERS];
    let count = char_segments(&bytes, &mut segments).expect("a good list");
    segments[..2 * count].to_vec()
}

/// Sets {48..57} and {48, 97..122}; not {-5..3}; the empty not-set.
fn segments() -> usize {
    let sets = [Transition::Set(vec![(48, 57)]), Transition::Set(vec![(48, 48), (97, 122)])];
    assert_eq!(segments_of(&sets), [48, 48, 49, 57, 58, 96, 97, 122]);
    let (mut segments, mut masks) = ([7; SEGMENT_NUMBERS], [7; MASK_WORDS]);
    let bytes = list_bytes(&sets).expect("few pairs");
    let matrix = segment_mask_matrix(&bytes, &mut segments, &mut masks).expect("a good list");
    assert_eq!((matrix.masks, matrix.words), (4, 1));
    assert_eq!(masks[..4], [3, 1, 0, 2]);
    assert_eq!(segments_of(&[Transition::NotSet(vec![(-5, 3)])]), [4, 1_114_111]);
    assert_eq!(segments_of(&[Transition::NotSet(vec![])]), [0, 1_114_111]);
    4
}

/// 100..200 and 201..300, both to 3: ascii 100..127, wide 128..300.
fn built() -> usize {
    let list = [Transition::Range(100, 200), Transition::Range(201, 300)];
    let list = list_bytes(&list).expect("no set");
    let mut builder = RowBuilder::new();
    let rows = builder.build(&list, &[3, 3], &[NO_CONTINUATION; 2]).expect("a good list");
    assert!((0..128).all(|symbol| (rows.ascii[symbol] == 3) == (symbol >= 100)));
    assert_eq!(rows.wide, [[128, 300, 3]]);
    assert!(rows.escape.is_empty());
    1
}
