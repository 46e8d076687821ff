//! The sample of the program `replay_rows`: lists of transitions and pools, and what the original
//! answers about them.
//!
//! Numbers are little-endian.
//!
//! | record | fields |
//! |---|---|
//! | 1 read_intervals, 2 char_segments, 3 segment_mask_matrix, 4 distinct_masks, 5 build_rows | list length u16, list, number of masks u16 (0 but of build_rows), a target u16 for each, a continuation u32 for each; two numbers u16, check u64 |
//! | 6 intern_ascii | rows u16, a pool of 384 numbers u16, a row of 128; the row's number u16, check u64 of the pool |
//! | 7 intern_wide | rows u16, a pool of 32 numbers u32, a row of 6; the row's number u16, check u64 of the pool |
//!
//! The two numbers are transitions and intervals; segments and 0; masks and words; distinct masks and
//! words; numbers of the wide row and of the escape row. A check is over the whole of the buffer that
//! the call is named for, as long as document 01 asks for; that of build_rows over the ascii row, the
//! wide row and the escape row.

use crate::lists;
use crate::original::transitions;
use crate::plain::transitions::distinct;
use crate::seeded::Seeded;
use lexer_dfa::Transition;
use oracle::Pools;

const LISTS: usize = 100;
const ASCII_POOLS: usize = 10;
const WIDE_POOLS: usize = 60;

/// The whole sample. `replay_rows` reads fewer than 65,536 bytes.
pub fn bytes() -> Vec<u8> {
    let mut from = Seeded::new(91);
    let mut out = Vec::new();
    for number in 0..LISTS {
        let list = match number {
            // As many transitions as fill a mask's first word, and one more.
            0 => vec![Transition::NotSet(vec![(48, 57)]); 64],
            1 => [vec![Transition::Atom(7); 64], vec![Transition::from('0'..='9')]].concat(),
            _ => short(&mut from),
        };
        of_list(&mut from, &list, &mut out);
    }
    for _ in 0..ASCII_POOLS {
        ascii_pool(&mut from, &mut out);
    }
    for _ in 0..WIDE_POOLS {
        wide_pool(&mut from, &mut out);
    }
    assert!(out.len() < 65_536);
    out
}

/// A list of few transitions and bytes.
fn short(from: &mut Seeded) -> Vec<Transition> {
    loop {
        let list = lists::seeded(from);
        if (1..8).contains(&list.len()) && lists::bytes(&list).len() < 120 {
            return list;
        }
    }
}

/// The sum of the sums after each number of a buffer, behind which zeros follow up to its length.
#[derive(Default)]
struct Check {
    sum: u64,
    sums: u64,
}

impl Check {
    fn over(mut self, numbers: impl IntoIterator<Item = u64>, length: usize) -> Check {
        let zeros = std::iter::repeat(0);
        for number in numbers.into_iter().chain(zeros).take(length) {
            self.sum = self.sum.wrapping_add(number);
            self.sums = self.sums.wrapping_add(self.sum);
        }
        self
    }
}

/// What is asked of a list: its bytes, and what its masks are given.
struct Question<'a> {
    list: &'a [u8],
    targets: &'a [u16],
    continuations: &'a [u32],
}

impl Question<'_> {
    fn record(&self, kind: u8, numbers: [usize; 2], check: Check, out: &mut Vec<u8>) {
        out.push(kind);
        out.extend((self.list.len() as u16).to_le_bytes());
        out.extend(self.list);
        out.extend((self.targets.len() as u16).to_le_bytes());
        out.extend(self.targets.iter().flat_map(|target| target.to_le_bytes()));
        out.extend(self.continuations.iter().flat_map(|number| number.to_le_bytes()));
        out.extend(numbers.iter().flat_map(|&number| (number as u16).to_le_bytes()));
        out.extend(check.sums.to_le_bytes());
    }
}

fn of_list(from: &mut Seeded, list: &[Transition], out: &mut Vec<u8>) {
    let (bytes, theirs) = (lists::bytes(list), transitions(list));
    let asked = Question { list: &bytes, targets: &[], continuations: &[] };
    let words = list.len().div_ceil(64);

    let intervals = oracle::intervals(&theirs).concat();
    let ends = intervals.iter().flat_map(|&(low, high)| [low as u64, high as u64 + 1]);
    let check = Check::default().over(ends, 2048);
    asked.record(1, [list.len(), intervals.len()], check, out);

    let segments = oracle::segments(&theirs);
    let numbers = segments.iter().flat_map(|&(low, high)| [low as u64, high as u64]);
    asked.record(2, [segments.len(), 0], Check::default().over(numbers, 4096), out);

    let masks = oracle::masks(&theirs);
    let matrix: Vec<Vec<u64>> = masks.chunks(words).map(<[u64]>::to_vec).collect();
    asked.record(3, [matrix.len(), words], Check::default().over(masks, 8192), out);

    let distinct = distinct(&matrix);
    let check = Check::default().over(distinct.concat(), 8192);
    asked.record(4, [distinct.len(), words], check, out);

    let (targets, continuations) = &lists::given(from, distinct.len());
    let mut given = targets.iter().copied().zip(continuations.iter().copied());
    let (ascii, wide, escape) = oracle::rows(&theirs, |_| given.next().expect("as many as masks"));
    let ranges = |low: u32, high: u32, goal: u32| [low, high, goal].map(u64::from);
    let check = Check::default()
        .over(ascii.map(u64::from), 128)
        .over(wide.iter().flat_map(|&(low, high, to)| ranges(low, high, to.into())), 6144)
        .over(escape.iter().flat_map(|&(low, high, to)| ranges(low, high, to)), 6144);
    let asked = Question { targets, continuations, ..asked };
    asked.record(5, [3 * wide.len(), 3 * escape.len()], check, out);
}

/// Two rows that the original has interned, and a third, equal or not.
fn ascii_pool(from: &mut Seeded, out: &mut Vec<u8>) {
    let mut row = || [from.pick(&[7, 8, 65535]); 128];
    let (mut theirs, asked) = (Pools::default(), row());
    theirs.intern_ascii(row());
    theirs.intern_ascii(row());
    let mut pool = theirs.ascii_numbers().to_vec();
    let rows = pool.len() / 128;
    pool.resize(384, 9);

    out.push(6);
    out.extend((rows as u16).to_le_bytes());
    out.extend(pool.iter().chain(&asked).flat_map(|target| target.to_le_bytes()));
    out.extend((theirs.intern_ascii(asked) as u16).to_le_bytes());
    let after = theirs.ascii_numbers();
    pool[..after.len()].copy_from_slice(after);
    out.extend(Check::default().over(pool.into_iter().map(u64::from), 384).sums.to_le_bytes());
}

/// Three rows of none to two ranges, and a fourth of two.
fn wide_pool(from: &mut Seeded, out: &mut Vec<u8>) {
    let mut row = |count| -> Vec<(u32, u32, u16)> {
        (0..count).map(|i| (128 + 10 * i, 130 + 10 * i, from.pick(&[3, 4]))).collect()
    };
    let mut theirs = Pools::default();
    let asked = row(2);
    let rows = [row(2), row(1), row(2)].map(|row| theirs.intern_wide(&row) + 1);
    let rows = rows.into_iter().max().unwrap_or(0);
    let mut pool = theirs.wide_numbers();
    pool.resize(32, 9);
    let numbers: Vec<u32> =
        asked.iter().flat_map(|&(low, high, to)| [low, high, u32::from(to)]).collect();

    out.push(7);
    out.extend((rows as u16).to_le_bytes());
    out.extend(pool.iter().chain(&numbers).flat_map(|number| number.to_le_bytes()));
    out.extend((theirs.intern_wide(&asked) as u16).to_le_bytes());
    let after = theirs.wide_numbers();
    pool[..after.len()].copy_from_slice(&after);
    out.extend(Check::default().over(pool.into_iter().map(u64::from), 32).sums.to_le_bytes());
}
