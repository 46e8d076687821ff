//! Decoding, by the original: the same words are accepted, and written again they are the words
//! that the room has.

use crate::{lists, tables};
use compare::original;
use compare::plain;
use compare::plain::table::{NONE, Table};
use lexer_dfa::{MAX_WORDS, ROOM_NUMBERS, decode_into};

/// Where a table's words begin in its room.
const WORDS_AT: usize = 9;

struct Judge {
    room: Vec<u32>,
}

impl Judge {
    fn new() -> Judge {
        Judge { room: vec![0; ROOM_NUMBERS] }
    }

    fn judged(&mut self, words: &[u32]) {
        let ours = decode_into(words, &mut self.room).ok();
        let theirs = original::decode(words).map(|table| (table.state_count(), table.serialize()));
        let ours = ours.map(|decoded| (decoded.states, &self.room[WORDS_AT..][..decoded.words]));
        let theirs = theirs.as_ref().map(|(states, words)| (*states, &words[..]));
        assert!(
            ours == theirs,
            "accepted by us: {}, by the original: {}; {} words: {:?}",
            ours.is_some(),
            theirs.is_some(),
            words.len(),
            &words[..words.len().min(300)]
        );
    }
}

pub fn seeded() -> usize {
    let mut judge = Judge::new();
    tables::each_seeded(|words| judge.judged(words))
}

pub fn each_word_damaged() -> usize {
    let mut judge = Judge::new();
    tables::each_word_damaged(|words| judge.judged(words))
}

pub fn broken_rules() -> usize {
    let mut judge = Judge::new();
    tables::each_broken(|words, _, _| judge.judged(words))
}

pub fn broken_items() -> usize {
    let mut judge = Judge::new();
    tables::each_broken_item(|words, _, _| judge.judged(words))
}

pub fn broken_crowds() -> usize {
    let mut judge = Judge::new();
    tables::each_broken_crowd(|words, _, _| judge.judged(words))
}

pub fn crowded() -> usize {
    let mut judge = Judge::new();
    tables::each_crowded(|words| judge.judged(words))
}

pub fn short_lists() -> usize {
    let mut judge = Judge::new();
    lists::each_short(|words| judge.judged(words))
}

pub fn sections() -> usize {
    let mut judge = Judge::new();
    lists::each_section(|words| judge.judged(words))
}

/// The limit is document 01's: where a table has more words, the original goes on.
pub fn past_the_limit() -> usize {
    let mut room = [0; ROOM_NUMBERS];
    for modes in [8183, 8184, 9000] {
        let table = Table { modes: vec![NONE; modes], ..Table::default() };
        let words = compare::tables::words(&table);
        let ours = decode_into(&words, &mut room).map(|_| ());
        let limit = plain::refusal(4, MAX_WORDS);
        assert_eq!(ours, if words.len() > MAX_WORDS { limit } else { Ok(()) });
        assert!(original::decode(&words).is_some());
    }
    3
}
