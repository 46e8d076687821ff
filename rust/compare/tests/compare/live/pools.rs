//! Pools by the original, which has room for every row.

use crate::pools::{ascii_row, wide_row};
use compare::seeded::Seeded;
use lexer_dfa::pools::{intern_ascii, intern_wide};
use oracle::Pools;

/// Seeded rows in seeded order, good ones alone: the same numbers, and the same rows in the pool.
pub fn seeded() -> usize {
    const POOLS: usize = 1000;
    const ROWS: usize = 100;
    let mut from = Seeded::new(72);
    for _ in 0..POOLS {
        let mut theirs = Pools::default();
        let (mut ascii, mut wide) = (vec![0xA5A5; ROWS * 128], vec![0xA5A5_A5A5; ROWS * 10]);
        let (mut ascii_rows, mut wide_rows) = (0, 0);
        for _ in 0..ROWS {
            let row = ascii_row(&mut from);
            if let Ok(row) = <[u16; 128]>::try_from(row) {
                let place = theirs.intern_ascii(row) as usize;
                assert_eq!(intern_ascii(&mut ascii, ascii_rows, &row), Ok(place));
                ascii_rows = ascii_rows.max(place + 1);
            }
            let row = wide_row(&mut from);
            let (threes, rest) = row.as_chunks();
            if rest.is_empty() && threes.iter().all(|&[_, _, target]| target < 65536) {
                let ranges: Vec<_> = threes.iter().map(|&[l, h, t]| (l, h, t as u16)).collect();
                let place = theirs.intern_wide(&ranges) as usize;
                assert_eq!(intern_wide(&mut wide, wide_rows, &row), Ok(place));
                wide_rows = wide_rows.max(place + 1);
            }
        }
        let numbers = theirs.ascii_numbers();
        assert_eq!(ascii_rows * 128, numbers.len());
        assert!(ascii[..numbers.len()] == *numbers);
        assert!(ascii[numbers.len()..].iter().all(|&number| number == 0xA5A5));
        let numbers = theirs.wide_numbers();
        assert!(wide[..numbers.len()] == numbers);
        assert!(wide[numbers.len()..].iter().all(|&number| number == 0xA5A5_A5A5));
    }
    POOLS * ROWS
}
