//! Decoding: ROOM, LIMIT, then words in order, LEFT, INDEX; and what it leaves in the room.

use super::read::{Read, read};
use super::refusal;
use super::rules::{Broken, first_broken};
use lexer_dfa::{Decoded, Refusal};

pub fn decode(words: &[u32], room_length: usize) -> Result<Decoded, Refusal> {
    let Read { table, .. } = accepted(words, room_length)?;
    Ok(Decoded { modes: table.modes.len(), states: table.states.len(), words: words.len() })
}

fn accepted(words: &[u32], room_length: usize) -> Result<Read, Refusal> {
    if room_length < 16384 {
        return refusal(7, 0);
    }
    if words.len() > 8192 {
        return refusal(4, 8192);
    }
    let read = read(words)?;
    match first_broken(&read.table) {
        Some(Broken { rule, item }) => Err(Refusal { number: 6, place: rule, item: item as u32 }),
        None => Ok(read),
    }
}

/// A room of that length after decoding: the number of words; the places of the sections' counts;
/// the words, flags made 0 or 1; the places of the records of variable length; 0 in all the rest.
/// Refused: 0 everywhere. A place counts from the room's start, so that word 0 is at 9.
pub fn room(words: &[u32], room_length: usize) -> Vec<u32> {
    let mut room = Vec::new();
    if let Ok(Read { sections, records, flags, .. }) = accepted(words, room_length) {
        let place = |at: usize| (at + 9) as u32;
        room.push(words.len() as u32);
        room.extend(sections.into_iter().map(place));
        room.extend(words);
        for flag in flags {
            room[flag + 9] = u32::from(words[flag] != 0);
        }
        room.extend(records.into_iter().map(place));
    }
    room.resize(room_length, 0);
    room
}
