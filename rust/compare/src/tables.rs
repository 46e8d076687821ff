//! Seeded tables that decoding accepts, and what breaks them.

pub mod broken;
pub mod build;
pub mod damage;
pub mod symbols;
mod write;

pub use write::words;

use crate::plain::table::{Accept, Continuation, DEAD, EscapeRow, NONE, State, Table};
use crate::seeded::Seeded;

/// No to three states, up to some 400 words.
pub fn small(from: &mut Seeded) -> Table {
    let states = from.below(4);
    build::table(from, states)
}

/// A dozen states, up to some 1,700 words.
pub fn middle(from: &mut Seeded) -> Table {
    let states = 8 + from.below(10);
    build::table(from, states)
}

/// A table that has that many items or more for every index rule which asks something of single ones.
pub fn many_sided(from: &mut Seeded, items: usize) -> Table {
    loop {
        let states = items + 2 + from.below(4);
        let table = build::table(from, states);
        let counts = [
            table.modes.len(),
            table.ascii_rows.len(),
            table.wide_rows.len(),
            table.continuations.len(),
        ];
        if counts.iter().all(|&count| count >= items) {
            return table;
        }
    }
}

/// Some 50 states and exactly that many words, at least 7,000.
pub fn full(from: &mut Seeded, length: usize) -> Table {
    let states = 40 + from.below(20);
    let mut table = build::table(from, states);
    build::fill(from, &mut table, length);
    table
}

/// Tables near 8,192 words of which one section takes all: each has as many records, or as long
/// ones, as a table can have.
pub fn crowded() -> Vec<Table> {
    let no_range = || EscapeRow { eof: NONE, ranges: Vec::new() };
    let state = State { ascii_row: 0, wide_row: 0, eof_target: DEAD, accept: NONE };
    let accept = Accept { rule: 7, consumed_eof: 2, actions: Vec::new() };
    let continuation = Continuation { contexts: Vec::new(), configs: Vec::new() };
    let actions = vec![[1, 2, 3]; 2726];
    // With 8,183 empty wide rows the room's 16,384 numbers are all used.
    vec![
        Table { modes: vec![NONE; 8183], ..Table::default() },
        Table { wide_rows: vec![Vec::new(); 8183], ..Table::default() },
        Table { accepts: vec![accept.clone(); 2727], ..Table::default() },
        Table { accepts: vec![Accept { actions, ..accept }], ..Table::default() },
        Table { continuations: vec![continuation; 4091], ..Table::default() },
        Table { ascii_rows: vec![vec![DEAD as u16; 128]; 127], ..Table::default() },
        // State 0 loops on every symbol, and the others on none.
        Table {
            states: vec![state; 1159],
            runs: [vec![vec![1]], vec![vec![0]; 1158]].concat(),
            ascii_rows: vec![vec![0; 128]],
            wide_rows: vec![Vec::new()],
            escape_rows: (0..1159).map(|_| no_range()).collect(),
            ..Table::default()
        },
    ]
}
