//! Encoding by the plain reading of document 01: the answer or the refusal, and every number of the
//! output.

use crate::{rooms, tables};
use compare::plain;
use lexer_dfa::{ROOM_NUMBERS, Refusal, Table, decode_into, encode_into};

/// The answer, which is judged with the output: the words and then zeros, or refused, zeros.
fn judged(room: &[u32], lent: usize) -> Result<usize, Refusal> {
    let mut out = vec![0xA5A5_A5A5; lent];
    let answer = encode_into(room, &mut out);
    let expected = plain::encode(room, lent);
    let told = || format!("{} numbers: {:?}", room.len(), &room[..room.len().min(400)]);
    let length = expected.as_ref().map(Vec::len).map_err(|&refusal| refusal);
    assert_eq!(answer, length, "into {lent} numbers, a room of {}", told());
    let mut left = expected.unwrap_or_default();
    left.resize(lent, 0);
    assert!(out == left, "the output of {lent} numbers for a room of {}", told());
    answer
}

/// Strange rooms: what is written, and NOT-TABLE exactly as the definition says.
pub fn strange() -> usize {
    let (mut written, mut short, mut no_table) = (0, 0, 0);
    let cases = rooms::each_nearly_left(|from, room| {
        let count = room.first().map_or(0, |&count| (count as usize).min(9000));
        let lent = from.pick(&[count, count + 1, count + 60, count.saturating_sub(1), 0]);
        match judged(room, lent) {
            Ok(_) => written += 1,
            Err(Refusal { number: 7, place: 0, item: 0 }) => short += 1,
            Err(_) => no_table += 1,
        }
    });
    // Rooms of every kind were met.
    assert!(written > 1000 && short > 1000 && no_table > 100_000, "{written} {short} {no_table}");
    cases
}

/// Small tables, into outputs of every length up to a few numbers more than they have words.
pub fn outputs() -> usize {
    let mut cases = 0;
    for words in tables::telling_tables() {
        let mut room = vec![0; ROOM_NUMBERS];
        decode_into(&words, &mut room).expect("a table");
        for lent in 0..words.len() + 4 {
            let answer = judged(&room, lent);
            let short = plain::refusal(7, 0);
            assert_eq!(answer, if lent < words.len() { short } else { Ok(words.len()) });
            cases += 1;
        }
    }
    cases
}

/// A table that owns its room has the same words, lent an output or not.
pub fn owned() -> usize {
    let mut cases = 0;
    tables::each_crowded(|words| {
        let Ok(table) = Table::decode(words) else { return };
        let expected = plain::encode(table.room(), words.len()).expect("a table");
        assert_eq!(table.encode(), expected);
        let mut out = vec![0xA5A5_A5A5; words.len() + 1];
        assert_eq!(table.encode_into(&mut out), Ok(words.len()));
        assert_eq!(out, [&expected[..], &[0]].concat());
        cases += 1;
    });
    cases
}
