//! Encoding: NOT-TABLE exactly when the room isn't what decoding leaves for some accepted words; ROOM
//! next, when the output is shorter than needed.

use super::{decode, refusal, room};
use lexer_dfa::Refusal;

/// The words that are written into an output of that many numbers.
pub fn encode(numbers: &[u32], lent: usize) -> Result<Vec<u32>, Refusal> {
    match own_words(numbers) {
        None => refusal(9, 0),
        Some(words) if lent < words.len() => refusal(7, 0),
        Some(words) => Ok(words.to_vec()),
    }
}

/// The words of a room that decoding leaves: they stand in the room, and leave it themselves.
fn own_words(numbers: &[u32]) -> Option<&[u32]> {
    let count = *numbers.first()? as usize;
    let words = numbers.get(9..)?.get(..count)?;
    decode(words, numbers.len()).ok()?;
    (room(words, numbers.len()) == numbers).then_some(words)
}
