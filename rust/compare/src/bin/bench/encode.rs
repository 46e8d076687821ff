//! Encoding of tables.

use crate::timing::compare;
use compare::plain::table::Table;
use compare::seeded::Seeded;
use compare::{samples, tables};
use oracle::CompiledLexerDfa;
use std::hint::black_box;

// Out of line on both sides: ours is behind the C face anyway.
#[inline(never)]
fn rust_serialize(table: &CompiledLexerDfa) -> Vec<u32> {
    table.serialize()
}

/// The tables whose decoding is timed; each into an output that is lent again and again, and into a
/// list of its own. The original's list is its own, and is dropped within the time. Ours judges the
/// whole room first, the original takes a table as it is.
pub fn encodings() {
    let full = tables::full(&mut Seeded::new(12), 8100);
    for (table, calls) in [(samples::one_state(), 512), (samples::ply_book(), 128), (full, 32)] {
        encode(&table, calls);
    }
}

fn encode(table: &Table, calls: usize) {
    let words = &tables::words(table);
    let name = format!("encode {} words, {} states", words.len(), table.states.len());
    let theirs = CompiledLexerDfa::from_serialized(words).expect("the original accepts the table");
    let ours = lexer_dfa::Table::decode(words).expect("the library accepts the table");
    assert_eq!(ours.encode(), rust_serialize(&theirs), "{name}");

    let mut out = vec![0; words.len()];
    let rust = |_| rust_serialize(black_box(&theirs));
    let lent = |_| black_box(&ours).encode_into(black_box(&mut out));
    compare(&format!("{name}, output lent"), calls, rust, lent);
    let owned = |_| black_box(&ours).encode();
    compare(&format!("{name}, list its own"), calls, rust, owned);
}
