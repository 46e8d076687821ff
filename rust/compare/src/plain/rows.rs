//! The rows of a list: every point's target and continuation, told by its mask.

use super::refusal;
use super::table::{DEAD, NONE};
use super::transitions::{distinct, matrix, read, segments};
use lexer_dfa::{Refusal, Transition};

/// How many numbers each buffer of a row call has.
#[derive(Clone, Copy, Debug)]
pub struct Lent {
    pub segments: usize,
    pub masks: usize,
    pub distinct: usize,
    pub ascii: usize,
    pub wide: usize,
    pub escape: usize,
}

impl Lent {
    /// As many as document 01 asks for.
    pub const ENOUGH: Lent =
        Lent { segments: 4096, masks: 8192, distinct: 8192, ascii: 128, wide: 6144, escape: 6144 };
}

/// The rows, three numbers for each range.
#[derive(Debug, PartialEq)]
pub struct Rows {
    pub ascii: [u16; 128],
    pub wide: Vec<[u32; 3]>,
    pub escape: Vec<[u32; 3]>,
}

/// "A row call: ROOM for the buffers above, the records, TARGETS, ROOM for these."
pub fn build(
    list: &[u8],
    targets: &[u16],
    continuations: &[u32],
    lent: Lent,
) -> Result<Rows, Refusal> {
    if lent.segments < 4096 || lent.masks < 8192 || lent.distinct < 8192 {
        return refusal(7, 0);
    }
    let list = read(list)?;
    let masks = distinct(&matrix(&list)).len();
    if targets.len() != masks || continuations.len() != masks {
        return refusal(11, 0);
    }
    if lent.ascii < 128 || lent.wide < 6144 || lent.escape < 6144 {
        return refusal(7, 0);
    }
    Ok(rows(&list, targets, continuations))
}

/// The rows of a list whose distinct masks were given these.
pub fn rows(list: &[Transition], targets: &[u16], continuations: &[u32]) -> Rows {
    let matrix = matrix(list);
    let distinct = distinct(&matrix);
    let mut rows = Rows { ascii: [DEAD as u16; 128], wide: Vec::new(), escape: Vec::new() };
    for ((low, high), mask) in segments(list).into_iter().zip(&matrix) {
        // The empty mask was given nothing: it is dead.
        let Some(place) = distinct.iter().position(|other| other == mask) else { continue };
        let (target, continuation) = (u32::from(targets[place]), continuations[place]);
        if target == DEAD {
            continue;
        }
        for point in low..=high.min(127) {
            rows.ascii[point as usize] = target as u16;
        }
        if high > 127 {
            join(&mut rows.wide, [low.max(128), high, target]);
        }
        if continuation != NONE {
            join(&mut rows.escape, [low, high, continuation]);
        }
    }
    rows
}

/// A range that touches the last of the row and has its goal is joined to it.
fn join(row: &mut Vec<[u32; 3]>, range: [u32; 3]) {
    match row.last_mut() {
        Some(last) if last[1] + 1 == range[0] && last[2] == range[2] => last[1] = range[1],
        _ => row.push(range),
    }
}
