//! The sample of the program `replay_forms`: rows of four wide ranges, and where the original leads from
//! each on a symbol.
//!
//! Records of 46 bytes, numbers little-endian: of each range low u32, high u32 and target u16; symbol u32,
//! the original's target u16.

use crate::plain::table::{DEAD, ESCAPE, EscapeRow, NONE, Range, State, Table};
use crate::seeded::Seeded;
use crate::{original, tables};

const ROWS: usize = 100;
const SYMBOLS: usize = 10;

/// The whole sample. `replay_forms` reads fewer than 65,536 bytes.
pub fn bytes() -> Vec<u8> {
    let mut from = Seeded::new(121);
    let mut out = Vec::new();
    for _ in 0..ROWS {
        let row = row(&mut from);
        let words = tables::words(&table(&row));
        let theirs = original::decode(&words).expect("the original accepts the table");
        for _ in 0..SYMBOLS {
            let symbol = symbol(&mut from, &row);
            for range in &row {
                out.extend(range.low.to_le_bytes());
                out.extend(range.high.to_le_bytes());
                out.extend((range.to as u16).to_le_bytes());
            }
            out.extend(symbol.to_le_bytes());
            out.extend(theirs.char_target(0, symbol.cast_signed()).to_le_bytes());
        }
    }
    assert!(out.len() < 65_536);
    out
}

/// Four ranges that ascend, some of one point, some that touch.
fn row(from: &mut Seeded) -> [Range; 4] {
    let mut low = 128 + from.below(100) as u32;
    [(); 4].map(|()| {
        let wide = from.pick(&[0, 1, 50, 1_000_000, 1_000_000_000]);
        let high = low + from.below(wide + 1) as u32;
        let to = from.pick(&[0, 1, 2, 3, ESCAPE, DEAD]);
        let range = Range { low, high, to };
        low = high + 1 + from.pick(&[0, 1, 200]);
        range
    })
}

/// A table of four states that all have that wide row.
fn table(row: &[Range; 4]) -> Table {
    let state = State { ascii_row: 0, wide_row: 0, eof_target: DEAD, accept: NONE };
    Table {
        modes: vec![0],
        states: vec![state; 4],
        runs: vec![vec![0]; 4],
        ascii_rows: vec![vec![DEAD as u16; 128]],
        wide_rows: vec![row.to_vec()],
        escape_rows: vec![EscapeRow { eof: NONE, ranges: vec![] }; 4],
        ..Table::default()
    }
}

/// An end of a range, the point beside it, or any symbol past ASCII.
fn symbol(from: &mut Seeded, row: &[Range; 4]) -> u32 {
    let range = from.pick(row);
    let any = from.word();
    from.pick(&[range.low, range.low - 1, range.high, range.high + 1, any]).max(128)
}
