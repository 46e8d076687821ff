//! The tables of samples/ are those that `samples` writes, and decoding accepts them.

use crate::decode::one_state;
use compare::plain;
use compare::samples;
use lexer_dfa::{ROOM_NUMBERS, Table};

const FOLDER: &str = concat!(env!("CARGO_MANIFEST_DIR"), "/../../samples/");

pub fn are_written() -> usize {
    for (name, bytes) in samples::files() {
        let stands = std::fs::read(format!("{FOLDER}{name}")).expect("a sample can be read");
        assert!(
            stands == bytes,
            "samples/{name} is not what `cargo run --release --bin samples` writes"
        );
        let words: Vec<u32> = stands
            .chunks(4)
            .map(|word| u32::from_le_bytes(word.try_into().expect("whole words")))
            .collect();
        let table = Table::decode(&words).expect("a sample is accepted");
        assert_eq!(table.room(), plain::room(&words, ROOM_NUMBERS), "samples/{name}");
    }
    assert_eq!(compare::tables::words(&samples::one_state()), one_state());
    2
}
