//! Coverage: how many code points from 0 to 1,114,111 are not dead in a given state.

use super::read::read;
use super::table::{DEAD, Table};
use super::{decode, refusal, room};
use lexer_dfa::Refusal;

/// NOT-TABLE exactly when the room isn't what decoding leaves for some accepted words, which are
/// then the room's own; next STATE.
pub fn coverage(numbers: &[u32], state: u16) -> Result<u32, Refusal> {
    match table_in(numbers) {
        None => refusal(9, 0),
        Some(table) if usize::from(state) >= table.states.len() => refusal(8, 0),
        Some(table) => Ok(points(&table, state)),
    }
}

fn table_in(numbers: &[u32]) -> Option<Table> {
    let words = numbers.get(9..)?.get(..numbers[0] as usize)?;
    decode(words, numbers.len()).ok()?;
    (room(words, numbers.len()) == numbers).then(|| read(words).expect("accepted words").table)
}

/// The ascii row's 128 targets, and the wide row's ranges where they reach into the points behind.
pub fn points(table: &Table, state: u16) -> u32 {
    let state = &table.states[usize::from(state)];
    let ascii = &table.ascii_rows[state.ascii_row as usize];
    let wide = &table.wide_rows[state.wide_row as usize];
    let ascii = ascii.iter().filter(|&&target| u32::from(target) != DEAD).count();
    let wide = (wide.iter().filter(|range| range.to != DEAD))
        .map(|range| (range.low.max(128)..=range.high.min(0x10FFFF)).count());
    (ascii + wide.sum::<usize>()) as u32
}
