//! Pools by the plain reading of document 01: the answer or the refusal, and every number of the pool.

use compare::plain::pools as plain;
use compare::seeded::Seeded;
use lexer_dfa::pools::{intern_ascii, intern_wide};

/// A row of 128 targets, one of few, or of another length.
pub fn ascii_row(from: &mut Seeded) -> Vec<u16> {
    let length = match from.below(16) {
        0 => from.pick(&[0, 1, 127, 129, 256]),
        _ => 128,
    };
    let mut row = vec![from.pick(&[0, 7, 65535]); length];
    // Rows that differ at the first target alone, or at the last.
    match from.below(4) {
        0 => row.first_mut().into_iter().for_each(|target| *target = 1),
        1 => row.last_mut().into_iter().for_each(|target| *target = 1),
        _ => {}
    }
    row
}

/// A row of up to three ranges, one of few; ranges need not ascend. Some are no row.
pub fn wide_row(from: &mut Seeded) -> Vec<u32> {
    let numbers = [0, 1, 2, 128, 300, u32::MAX];
    let mut row = Vec::new();
    for _ in 0..from.below(4) {
        let target = from.pick(&[0, 1, 1, 2, 65535, 65536]);
        row.extend([from.pick(&numbers[..2]), from.pick(&numbers), target.min(65535)]);
        // A target past its field is rare, so that most rows are good.
        if from.below(20) == 0 {
            row.pop();
            row.push(target);
        }
    }
    if from.below(16) == 0 {
        row.push(1);
    }
    row
}

fn ascii_same(pool: &mut Vec<u16>, rows: usize, row: &[u16], met: &mut [usize; 12]) -> usize {
    let (expected, left) = plain::intern_ascii(pool, rows, row);
    let answer = intern_ascii(pool, rows, row);
    assert_eq!(answer, expected, "{rows} rows in {} numbers, {row:?}", pool.len());
    assert!(*pool == left, "the pool of {rows} rows in {} numbers, {row:?}", pool.len());
    met[answer.map_or_else(|refusal| refusal.number as usize, |_| 0)] += 1;
    answer.map_or(rows, |place| rows.max(place + 1))
}

fn wide_same(pool: &mut Vec<u32>, rows: usize, row: &[u32], met: &mut [usize; 12]) -> usize {
    let (expected, left) = plain::intern_wide(pool, rows, row);
    let told = format!("{rows} rows in {pool:?}, {row:?}");
    let answer = intern_wide(pool, rows, row);
    assert_eq!(answer, expected, "{told}");
    assert!(*pool == left, "the pool of {told}");
    met[answer.map_or_else(|refusal| refusal.number as usize, |_| 0)] += 1;
    answer.map_or(rows, |place| rows.max(place + 1))
}

/// Pools that start empty, with other numbers in them, and are filled until rows no longer fit; how many
/// rows there are is at times said wrongly.
pub fn seeded() -> usize {
    const POOLS: usize = 3000;
    let mut from = Seeded::new(71);
    let (mut ascii_met, mut wide_met) = ([0; 12], [0; 12]);
    for _ in 0..POOLS {
        let mut pool = vec![0xA5A5; from.below(7) * 128 + from.pick(&[0, 0, 1, 127])];
        let mut rows = 0_usize;
        for _ in 0..20 {
            let row = ascii_row(&mut from);
            let stated = match from.below(12) {
                0 => from.pick(&[0, rows + 1, rows.saturating_sub(1), 1 << 57, usize::MAX]),
                _ => rows,
            };
            let after = ascii_same(&mut pool, stated, &row, &mut ascii_met);
            rows = if stated == rows { after } else { rows };
        }
        let mut pool = vec![0; from.below(60)];
        pool.iter_mut().for_each(|number| *number = from.pick(&[0, 1, 2, 7, u32::MAX]));
        let mut rows = 0_usize;
        for _ in 0..20 {
            let row = wide_row(&mut from);
            let stated = match from.below(12) {
                0 => from.pick(&[0, rows + 1, rows + 2, rows.saturating_sub(1), usize::MAX]),
                _ => rows,
            };
            let after = wide_same(&mut pool, stated, &row, &mut wide_met);
            rows = if stated == rows { after } else { rows };
        }
    }
    // Interned, FIELD, ROOM and NOT-TABLE were met, each often.
    for met in [ascii_met, wide_met] {
        assert!([0, 3, 7, 9].iter().all(|&number| met[number] > 500), "{met:?}");
    }
    2 * POOLS * 20
}

/// Pools of up to six numbers, each of 0 to 2, as pools of wide rows, with every count up to seven and
/// the largest; the row is one of few. And every wrong row in a wrong pool: NOT-TABLE comes first.
pub fn small_pools() -> usize {
    let rows: [&[u32]; 7] =
        [&[], &[0], &[0, 0, 0], &[0, 1, 2], &[0, 0, 65536], &[1, 1], &[0, 1, 2, 0, 1, 2]];
    let mut met = [0; 12];
    let mut cases = 0;
    for length in 0..=6 {
        for pool in 0..3_usize.pow(length) {
            let numbers = (0..length).map(|place| (pool / 3_usize.pow(place) % 3) as u32);
            let pool: Vec<u32> = numbers.collect();
            for stated in (0..=7).chain([usize::MAX]) {
                for row in rows {
                    wide_same(&mut pool.clone(), stated, row, &mut met);
                    cases += 1;
                }
            }
        }
    }
    assert!([0, 3, 7, 9].iter().all(|&number| met[number] > 500), "{met:?}");
    for length in [0, 127, 128, 129, 255, 256] {
        for stated in [0, 1, 2, 3, usize::MAX] {
            for row in [0, 127, 128, 129, 256] {
                ascii_same(&mut vec![7; length], stated, &vec![7; row], &mut met);
                ascii_same(&mut vec![7; length], stated, &vec![8; row], &mut met);
                cases += 2;
            }
        }
    }
    cases
}
