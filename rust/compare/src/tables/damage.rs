//! Words that were a table's, damaged.

use crate::plain;
use crate::plain::table::{NONE, TAG};
use crate::seeded::Seeded;
use lexer_dfa::ROOM_NUMBERS;

/// Values at and beside the bounds that fields and rules have.
pub const TELLING: [u32; 16] =
    [0, 1, 2, 3, 5, 5 | 1 << 8, 63, 64, 128, 65533, 65534, 65535, 65536, TAG, NONE - 1, NONE];

/// Where the counts and the records of variable length stand among the words of a table: a room has
/// both places. A damage there tells more than one in a row of targets.
pub fn places(words: &[u32]) -> Vec<usize> {
    let room = plain::room(words, ROOM_NUMBERS);
    let sections = &room[1..9];
    let records = room[9 + words.len()..].iter().take_while(|&&place| place != 0);
    sections.iter().chain(records).map(|&place| place as usize - 9).collect()
}

/// One damage, at a word that follows one of the places as often as at any word.
pub fn damage(from: &mut Seeded, words: &mut Vec<u32>, places: &[usize]) {
    if words.is_empty() {
        return words.push(TAG);
    }
    let near = from.pick(places) + from.pick(&[0, 0, 1, 2, 3, 4, 5, 6]);
    let any = from.below(words.len());
    let at = from.pick(&[near.min(words.len() - 1), any]);
    let telling = from.pick(&TELLING);
    match from.below(9) {
        0 => words.truncate(at),
        1 | 2 => words[at] ^= 1 << from.below(32),
        3 => words[at] = words[at].wrapping_add(1),
        4 => words[at] = words[at].wrapping_sub(1),
        5 => words[at] = telling,
        6 => words.insert(at, telling),
        7 => drop(words.remove(at)),
        _ => words.push(telling),
    }
}
