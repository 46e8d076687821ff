//! Decoding of tables.

use crate::timing::compare;
use compare::plain::table::Table;
use compare::seeded::Seeded;
use compare::{samples, tables};
use lexer_dfa::{ROOM_NUMBERS, decode_into};
use oracle::CompiledLexerDfa;
use std::hint::black_box;

// Out of line on both sides: ours is behind the C face anyway.
#[inline(never)]
fn rust_decode(words: &[u32]) -> Option<CompiledLexerDfa> {
    CompiledLexerDfa::from_serialized(words)
}

/// A table of one state, a ply book's, and one of nearly as many words as a table may have; each
/// into a room that is lent again and again, and into a room of its own. The original's table is
/// its own, and is dropped within the time.
pub fn decodings() {
    let full = tables::full(&mut Seeded::new(12), 8100);
    for (table, calls) in [(samples::one_state(), 512), (samples::ply_book(), 128), (full, 32)] {
        decode(&table, calls);
    }
}

fn decode(table: &Table, calls: usize) {
    let words = &tables::words(table);
    let name = format!("decode {} words, {} states", words.len(), table.states.len());
    let theirs = rust_decode(words).expect("the original accepts the table");
    let ours = lexer_dfa::Table::decode(words).expect("the library accepts the table");
    assert_eq!(ours.words(), theirs.serialize(), "{name}");

    let mut room = vec![0; ROOM_NUMBERS];
    let rust = |_| rust_decode(black_box(words));
    let lent = |_| decode_into(black_box(words), black_box(&mut room));
    compare(&format!("{name}, room lent"), calls, rust, lent);
    let owned = |_| lexer_dfa::Table::decode(black_box(words));
    compare(&format!("{name}, room its own"), calls, rust, owned);
}
