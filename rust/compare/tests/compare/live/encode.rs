//! Encoding, by the original: a decoded table is written as the original writes it, and those words
//! fill the same room.

use crate::tables;
use compare::original;
use lexer_dfa::{ROOM_NUMBERS, decode_into, encode_into};

struct Judge {
    room: Vec<u32>,
    again: Vec<u32>,
    out: Vec<u32>,
    tables: usize,
}

impl Judge {
    fn new() -> Judge {
        let [room, again, out] = [ROOM_NUMBERS, ROOM_NUMBERS, 8200].map(|length| vec![0; length]);
        Judge { room, again, out, tables: 0 }
    }

    /// Words that are no table leave nothing to encode.
    fn judged(&mut self, words: &[u32]) {
        let Ok(decoded) = decode_into(words, &mut self.room) else { return };
        let told = || format!("{} words: {:?}", words.len(), &words[..words.len().min(300)]);
        self.out.fill(0xA5A5_A5A5);
        assert_eq!(encode_into(&self.room, &mut self.out), Ok(words.len()), "{}", told());
        let (written, behind) = self.out.split_at(words.len());
        let theirs = original::decode(words).expect("the original accepts the table").serialize();
        assert!(written == theirs, "the words of {}", told());
        assert!(behind.iter().all(|&number| number == 0), "behind {}", told());

        self.again.fill(0xA5A5_A5A5);
        assert_eq!(decode_into(written, &mut self.again), Ok(decoded), "{}", told());
        assert!(self.again == self.room, "the room of {}", told());
        self.tables += 1;
    }
}

pub fn seeded() -> usize {
    let mut judge = Judge::new();
    tables::each_seeded(|words| judge.judged(words));
    judge.tables
}

pub fn crowded() -> usize {
    let mut judge = Judge::new();
    tables::each_crowded(|words| judge.judged(words));
    judge.tables
}
