//! Pools: rows that stand one behind another, each of them once.

use super::refusal;
use lexer_dfa::Refusal;

/// The number of a row in a pool of ascii rows, and the pool afterwards. "NOT-TABLE (the stated rows
/// don't fit the lent pool), FIELD (ascii row not 128 long), ROOM."
pub fn intern_ascii(pool: &[u16], rows: usize, row: &[u16]) -> (Result<usize, Refusal>, Vec<u16>) {
    let as_it_stood = pool.to_vec();
    if rows > pool.len() / 128 {
        return (refusal(9, 0), as_it_stood);
    }
    if row.len() != 128 {
        return (refusal(3, 0), as_it_stood);
    }
    if let Some(found) = pool.chunks(128).take(rows).position(|stands| stands == row) {
        return (Ok(found), as_it_stood);
    }
    match appended(pool, rows * 128, row) {
        Some(longer) => (Ok(rows), longer),
        None => (refusal(7, 0), as_it_stood),
    }
}

/// The same of wide rows: "a wide row stands as its count, then its ranges"; FIELD: "wide row not in
/// threes, or a target past 65535".
pub fn intern_wide(pool: &[u32], rows: usize, row: &[u32]) -> (Result<usize, Refusal>, Vec<u32>) {
    let as_it_stood = pool.to_vec();
    let mut standing = Vec::new();
    let mut at = 0;
    for _ in 0..rows {
        let ranges = pool.get(at).map(|&count| at + 1..at + 1 + 3 * count as usize);
        let Some(ranges) = ranges.filter(|ranges| ranges.end <= pool.len()) else {
            return (refusal(9, 0), as_it_stood);
        };
        at = ranges.end;
        standing.push(&pool[ranges]);
    }
    let (threes, rest) = row.as_chunks();
    if !rest.is_empty() || threes.iter().any(|&[_, _, target]| target > 65535) {
        return (refusal(3, 0), as_it_stood);
    }
    if let Some(found) = standing.iter().position(|&stands| stands == row) {
        return (Ok(found), as_it_stood);
    }
    let counted = [&[threes.len() as u32], row].concat();
    match appended(pool, at, &counted) {
        Some(longer) => (Ok(rows), longer),
        None => (refusal(7, 0), as_it_stood),
    }
}

fn appended<T: Copy>(pool: &[T], at: usize, row: &[T]) -> Option<Vec<T>> {
    let mut pool = pool.to_vec();
    pool.get_mut(at..at + row.len())?.copy_from_slice(row);
    Some(pool)
}
