//! Symbols that could tell one answer of a state from another.

use crate::plain::table::{Range, Table};

/// The ends of every range of the state with their neighbours, the last code point and the number
/// behind it, and negatives.
pub fn telling(table: &Table, state: u16) -> Vec<i32> {
    const OTHERS: [i32; 12] = [
        0x10FFFE,
        0x10FFFF,
        0x110000,
        0x110001,
        -1,
        -2,
        -127,
        -128,
        -65536,
        i32::MAX,
        i32::MIN,
        i32::MIN + 1,
    ];
    let near = |end: u32| [end.wrapping_sub(1), end, end.wrapping_add(1)];
    let ends = |range: &Range| [near(range.low), near(range.high)].concat();
    let wide = &table.wide_rows[table.states[usize::from(state)].wide_row as usize];
    let escapes = &table.escape_rows[usize::from(state)].ranges;
    let ends = wide.iter().chain(escapes).flat_map(ends).map(|end| end as i32);
    ends.chain(OTHERS).collect()
}
