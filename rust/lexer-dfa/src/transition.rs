//! Transitions, and the bytes of a list of them.

use crate::Refusal;
use std::ops::RangeInclusive;

/// The most transitions that a list may have.
pub const MAX_TRANSITIONS: usize = 256;

/// The most intervals that the transitions of a list may have together.
pub const MAX_INTERVALS: usize = 1024;

/// The most pairs whose bytes a record's length can count.
const MAX_PAIRS: usize = 8191;

/// Which code points a transition is taken on. Numbers are any: what lies outside 0 to 0x10FFFF
/// holds no code point, and so does an inverted range.
///
/// ```
/// use lexer_dfa::{Transition, list_bytes, read_transitions};
///
/// let list = list_bytes(&[
///     Transition::from('0'..='9'),
///     Transition::from('_'),
///     Transition::NotSet(vec![(0, 31), (127, 127)]),
/// ])?;
/// assert_eq!(list[..11], [2, 8, 0, 48, 0, 0, 0, 57, 0, 0, 0]);
///
/// let read = read_transitions(&list)?;
/// assert_eq!((read.transitions, read.intervals), (3, 4));
/// # Ok::<(), lexer_dfa::Refusal>(())
/// ```
#[derive(Clone, Debug, Eq, Hash, PartialEq)]
pub enum Transition {
    /// On one number.
    Atom(i32),
    /// On the numbers from the first to the second.
    Range(i32, i32),
    /// On the numbers of the pairs, low and high. Each low is at most its high, and each next low
    /// above the last high: a list in which they are not is refused with ORDER.
    Set(Vec<(i32, i32)>),
    /// On every other code point; the pairs are as those of a set.
    NotSet(Vec<(i32, i32)>),
    /// On every code point.
    Wildcard,
}

impl From<char> for Transition {
    fn from(only: char) -> Transition {
        Transition::Atom(only as i32)
    }
}

impl From<RangeInclusive<char>> for Transition {
    fn from(range: RangeInclusive<char>) -> Transition {
        Transition::Range(*range.start() as i32, *range.end() as i32)
    }
}

/// The bytes of a list of transitions: for each a record of its tag, its length and its numbers. They
/// are not judged here, but by the calls that read them; a set of more pairs than a record's length
/// can count, 8,191, is refused with LIMIT at the record's offset.
pub fn list_bytes(list: &[Transition]) -> Result<Vec<u8>, Refusal> {
    let mut bytes = Vec::new();
    for transition in list {
        match transition {
            Transition::Atom(number) => put_record(&mut bytes, 1, &[*number]),
            Transition::Range(low, high) => put_record(&mut bytes, 2, &[*low, *high]),
            Transition::Set(pairs) => put_pairs(&mut bytes, 3, pairs)?,
            Transition::NotSet(pairs) => put_pairs(&mut bytes, 4, pairs)?,
            Transition::Wildcard => put_record(&mut bytes, 5, &[]),
        }
    }
    Ok(bytes)
}

fn put_pairs(bytes: &mut Vec<u8>, tag: u8, pairs: &[(i32, i32)]) -> Result<(), Refusal> {
    if pairs.len() > MAX_PAIRS {
        return Err(Refusal { number: 4, place: bytes.len(), item: 0 });
    }
    let numbers: Vec<i32> = pairs.iter().flat_map(|&(low, high)| [low, high]).collect();
    put_record(bytes, tag, &numbers);
    Ok(())
}

fn put_record(bytes: &mut Vec<u8>, tag: u8, numbers: &[i32]) {
    bytes.push(tag);
    bytes.extend((4 * numbers.len() as u16).to_le_bytes());
    bytes.extend(numbers.iter().flat_map(|number| number.to_le_bytes()));
}
