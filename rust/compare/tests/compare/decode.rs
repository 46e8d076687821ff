//! Decoding by the plain reading of document 01: the answer or the refusal by number, place and item,
//! and every number of the room.

use crate::{lists, tables};
use compare::plain;
use compare::plain::table::{DEAD, NONE, TAG};
use lexer_dfa::{Decoded, ROOM_NUMBERS, Refusal, Table, decode_into};

/// A room that is lent again and again, full of other numbers each time.
struct Judge {
    room: Vec<u32>,
}

impl Judge {
    fn with_room(numbers: usize) -> Judge {
        Judge { room: vec![0; numbers] }
    }

    fn judged(&mut self, words: &[u32]) {
        let _ = self.answer(words);
    }

    /// The rule that was broken is the one that is named, and so is the item.
    fn judged_broken(&mut self, words: &[u32], rule: usize, item: usize) {
        let named = Refusal { number: 6, place: rule, item: item as u32 };
        assert_eq!(self.answer(words), Err(named), "{words:?}");
    }

    /// The answer, which is judged with the room.
    fn answer(&mut self, words: &[u32]) -> Result<Decoded, Refusal> {
        self.room.fill(0xA5A5_A5A5);
        let ours = decode_into(words, &mut self.room);
        let numbers = self.room.len();
        let told = || format!("{} words: {:?}", words.len(), &words[..words.len().min(300)]);
        assert_eq!(ours, plain::decode(words, numbers), "{}", told());
        match ours {
            Ok(_) => assert!(self.room == plain::room(words, numbers), "the room of {}", told()),
            Err(_) => assert!(is_zero(&self.room), "a number is left of {}", told()),
        }
        ours
    }
}

/// With no way out of the loop it goes by many numbers at once; there are millions of refusals.
fn is_zero(room: &[u32]) -> bool {
    room.iter().fold(0, |all, number| all | number) == 0
}

/// Document 01's examples of decoding.
pub fn examples() -> usize {
    let mut judge = Judge::with_room(ROOM_NUMBERS);
    let empty = [TAG, 0, 0, 0, 0, 0, 0, 0, 0, 0];
    let refused = plain::refusal;
    let accepted = |modes, states, words| Ok(Decoded { modes, states, words });
    assert_eq!(judge.answer(&empty[..9]), accepted(0, 0, 9));
    assert_eq!(judge.answer(&empty[..8]), refused(1, 8));
    assert_eq!(judge.answer(&empty), refused(5, 9));
    assert_eq!(judge.answer(&[]), refused(1, 0));
    assert_eq!(judge.answer(&[0; 8193]), refused(4, 8192));
    assert_eq!(judge.answer(&one_state()), accepted(1, 1, 82));
    // A wide range below 128, and one above 0x10FFFF.
    let wide = [TAG, 0, 0, 0, 0, 1, 2, 5, 9, DEAD, 0x110000, NONE, DEAD, 0, 0, 0];
    assert_eq!(judge.answer(&wide), accepted(0, 0, 16));

    let mut short = Judge::with_room(ROOM_NUMBERS - 1);
    assert_eq!(short.answer(&one_state()), refused(7, 0));
    assert_eq!(short.answer(&[0; 8193]), refused(7, 0));
    9
}

/// The table that document 01 gives to `tableread`.
pub fn one_state() -> Vec<u32> {
    [&[TAG, 1, 0, 1, 0, 0, DEAD, NONE, 1, 1, 1][..], &[0; 64], &[1, 0, 0, 1, NONE, 0, 0]].concat()
}

pub fn seeded() -> usize {
    let mut judge = Judge::with_room(ROOM_NUMBERS);
    tables::each_seeded(|words| judge.judged(words))
}

pub fn each_word_damaged() -> usize {
    let mut judge = Judge::with_room(ROOM_NUMBERS);
    tables::each_word_damaged(|words| judge.judged(words))
}

pub fn broken_rules() -> usize {
    let mut judge = Judge::with_room(ROOM_NUMBERS);
    tables::each_broken(|words, rule, item| judge.judged_broken(words, rule, item))
}

pub fn broken_items() -> usize {
    let mut judge = Judge::with_room(ROOM_NUMBERS);
    tables::each_broken_item(|words, rule, item| judge.judged_broken(words, rule, item))
}

pub fn broken_crowds() -> usize {
    let mut judge = Judge::with_room(ROOM_NUMBERS);
    tables::each_broken_crowd(|words, rule, item| judge.judged_broken(words, rule, item))
}

pub fn crowded() -> usize {
    let mut judge = Judge::with_room(ROOM_NUMBERS);
    tables::each_crowded(|words| judge.judged(words))
}

pub fn short_lists() -> usize {
    let mut judge = Judge::with_room(ROOM_NUMBERS);
    lists::each_short(|words| judge.judged(words))
}

pub fn sections() -> usize {
    let mut judge = Judge::with_room(ROOM_NUMBERS);
    lists::each_section(|words| judge.judged(words))
}

/// Rooms of every telling length, and words around the limit of 8,192.
pub fn rooms_and_lengths() -> usize {
    const ROOMS: [usize; 10] = [0, 1, 8, 9, 18, 8192, 16_383, 16_384, 16_385, 40_000];
    let mut words = compare::tables::words(&compare::tables::crowded()[1]);
    words.resize(8200, 0);
    let mut cases = 0;
    for numbers in ROOMS {
        let mut judge = Judge::with_room(numbers);
        for list in [&one_state()[..], &[], &[TAG], &[0], &[TAG, NONE]] {
            judge.judged(list);
        }
        for length in 8185..=words.len() {
            judge.judged(&words[..length]);
        }
        cases += 5 + words.len() - 8184;
    }
    cases
}

/// A table that owns its room has the same one.
pub fn owned() -> usize {
    tables::each_crowded(|words| {
        let owned = Table::decode(words);
        assert_eq!(owned.as_ref().err().copied(), plain::decode(words, ROOM_NUMBERS).err());
        if let Ok(table) = owned {
            assert_eq!(table.room(), plain::room(words, ROOM_NUMBERS));
            assert_eq!(table.words(), &table.room()[9..9 + words.len()]);
        }
    })
}
