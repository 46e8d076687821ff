//! The tables that stand in samples/, as files of little-endian words.

mod book;

pub use book::ply_book;

use crate::plain::table::{DEAD, EscapeRow, NONE, State, Table};
use crate::tables;

/// Each file's name and bytes.
pub fn files() -> [(&'static str, Vec<u8>); 2] {
    [("ply-82.words", bytes(&one_state())), ("ply-book.words", bytes(&ply_book()))]
}

fn bytes(table: &Table) -> Vec<u8> {
    tables::words(table).into_iter().flat_map(u32::to_le_bytes).collect()
}

/// The table for which document 01 has `tableread` print `ok 1 1 82`: one state, which loops on
/// every ASCII symbol.
pub fn one_state() -> Table {
    Table {
        modes: vec![0],
        states: vec![State { ascii_row: 0, wide_row: 0, eof_target: DEAD, accept: NONE }],
        runs: vec![vec![1]],
        ascii_rows: vec![vec![0; 128]],
        wide_rows: vec![Vec::new()],
        accepts: Vec::new(),
        escape_rows: vec![EscapeRow { eof: NONE, ranges: Vec::new() }],
        continuations: Vec::new(),
    }
}
