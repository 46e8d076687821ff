//! From a list of transitions to the rows of a state: intervals, segments, masks, and the rows.
//!
//! A list is bytes, which [`list_bytes`](crate::list_bytes) writes; the calls take any. What they
//! refuse a list with is at the offset of the record:
//!
//! | refused with | where |
//! |---|---|
//! | SHORT | the bytes end inside the record |
//! | FIELD | the tag is none of 1 to 5, or the length is not its own |
//! | ORDER | the pairs of a set do not ascend |
//! | LIMIT | it is past [`MAX_TRANSITIONS`](crate::MAX_TRANSITIONS), or its intervals go past [`MAX_INTERVALS`](crate::MAX_INTERVALS) |
//!
//! A call that writes asks for the room that the longest list can need before it reads a byte, and
//! is refused with ROOM at 0 where a buffer is shorter. Refused, every number that is lent is 0;
//! accepted, every one behind the answer's.

use crate::{Refusal, ffi};

/// Numbers that [`read_intervals`] writes at most, and asks for.
pub const INTERVAL_NUMBERS: usize = 2048;

/// Numbers that a buffer for segments must have.
pub const SEGMENT_NUMBERS: usize = 4096;

/// Words that a buffer for masks must have, and one for distinct masks.
pub const MASK_WORDS: usize = 8192;

/// Targets that a buffer for an ascii row must have.
pub const ASCII_TARGETS: usize = 128;

/// Numbers that a buffer for a wide or an escape row must have.
pub const ROW_NUMBERS: usize = 6144;

/// The continuation of a mask that has none.
pub const NO_CONTINUATION: u32 = crate::lookup::NONE;

/// What a list has.
#[derive(Clone, Copy, Debug, Eq, Hash, PartialEq)]
pub struct Counted {
    /// How many transitions.
    pub transitions: usize,
    /// How many intervals they have together: cut to the code points, empty ones dropped.
    pub intervals: usize,
}

/// How many masks were written.
#[derive(Clone, Copy, Debug, Eq, Hash, PartialEq)]
pub struct Masked {
    /// How many masks.
    pub masks: usize,
    /// Of how many words each: one for 64 transitions.
    pub words: usize,
}

/// The buffers that [`build_rows`] is lent.
#[derive(Debug)]
pub struct RowBuffers<'a> {
    /// The segments, low and high each: [`SEGMENT_NUMBERS`].
    pub segments: &'a mut [u32],
    /// The mask of each segment: [`MASK_WORDS`].
    pub masks: &'a mut [u64],
    /// The distinct masks: [`MASK_WORDS`].
    pub distinct: &'a mut [u64],
    /// The ascii row: [`ASCII_TARGETS`].
    pub ascii: &'a mut [u16],
    /// The wide row, low, high and target of each range: [`ROW_NUMBERS`].
    pub wide: &'a mut [u32],
    /// The escape row, low, high and continuation of each range: [`ROW_NUMBERS`].
    pub escape: &'a mut [u32],
}

/// How many numbers the rows have that were built, three for each range. An ascii row has always 128
/// targets.
#[derive(Clone, Copy, Debug, Eq, Hash, PartialEq)]
pub struct Built {
    /// Of the wide row.
    pub wide: usize,
    /// Of the escape row.
    pub escape: usize,
}

/// How many transitions and intervals a list has.
pub fn read_transitions(list: &[u8]) -> Result<Counted, Refusal> {
    counted(ffi::read_transitions(list))
}

/// Writes both ends of every interval, its low and its high + 1, in the order of the records. Asks for
/// [`INTERVAL_NUMBERS`].
pub fn read_intervals(list: &[u8], out: &mut [u32]) -> Result<Counted, Refusal> {
    counted(ffi::read_intervals(list, out))
}

/// Writes the segments of a list, as low, high; and answers how many there are. A segment runs from an
/// end of an interval to before the next. Asks for [`SEGMENT_NUMBERS`].
pub fn char_segments(list: &[u8], out: &mut [u32]) -> Result<usize, Refusal> {
    let answer = ffi::char_segments(list, out);
    Refusal::unless_accepted(answer.number, answer.item, answer.place)?;
    Ok(answer.segments)
}

/// Writes the segments of a list, and for each its mask: bit i is set where transition i holds the
/// segment. Asks for [`SEGMENT_NUMBERS`] and [`MASK_WORDS`].
pub fn segment_mask_matrix(
    list: &[u8],
    segments: &mut [u32],
    masks: &mut [u64],
) -> Result<Masked, Refusal> {
    masked(ffi::segment_mask_matrix(list, segments, masks))
}

/// Does the same, and writes the distinct masks: each that is not empty once, in the order of first
/// segment. Answers how many those are. Asks for [`MASK_WORDS`] for them too.
pub fn distinct_masks(
    list: &[u8],
    segments: &mut [u32],
    masks: &mut [u64],
    distinct: &mut [u64],
) -> Result<Masked, Refusal> {
    masked(ffi::distinct_masks(list, segments, masks, distinct))
}

/// Builds the rows of a state whose transitions these are: where it goes on each code point. Each
/// distinct mask, in the order of [`distinct_masks`], was given a target and a continuation, or
/// [`NO_CONTINUATION`]; what is given a dead target is left out.
///
/// Judged in this order: ROOM for segments, masks and distinct masks; the records; TARGETS at 0, where
/// targets or continuations are not as many as distinct masks; ROOM for the three rows.
/// [`RowBuilder`] has the same with buffers of its own.
pub fn build_rows(
    list: &[u8],
    targets: &[u16],
    continuations: &[u32],
    lent: RowBuffers<'_>,
) -> Result<Built, Refusal> {
    let answer = ffi::build_rows(list, targets, continuations, lent);
    Refusal::unless_accepted(answer.number, answer.item, answer.place)?;
    Ok(Built { wide: answer.wide, escape: answer.escape })
}

/// Builds rows in buffers of its own, for one list after another.
///
/// ```
/// use lexer_dfa::{DEAD_STATE, NO_CONTINUATION, RowBuilder, Transition, list_bytes};
///
/// // A state goes on digits to 3, and on letters, among them the degree sign, to 4.
/// let list = list_bytes(&[
///     Transition::from('0'..='9'),
///     Transition::Set(vec![(48, 57), (97, 122), (176, 176)]),
/// ])?;
/// let mut builder = RowBuilder::new();
///
/// // Which transitions are taken together: both on a digit (3), the second alone on a letter (2).
/// let masks = builder.distinct_masks(&list)?;
/// assert_eq!(masks.collect::<Vec<_>>(), [[3], [2]]);
///
/// let rows = builder.build(&list, &[3, 4], &[NO_CONTINUATION, 0])?;
/// assert_eq!(rows.ascii[usize::from(b'9')], 3);
/// assert_eq!(rows.ascii[usize::from(b' ')], DEAD_STATE);
/// assert_eq!(rows.wide, [[176, 176, 4]]);
/// assert_eq!(rows.escape, [[97, 122, 0], [176, 176, 0]]);
/// # Ok::<(), lexer_dfa::Refusal>(())
/// ```
#[derive(Clone, Debug)]
pub struct RowBuilder {
    segments: Vec<u32>,
    masks: Vec<u64>,
    distinct: Vec<u64>,
    ascii: [u16; ASCII_TARGETS],
    wide: Vec<u32>,
    escape: Vec<u32>,
}

/// The rows of a state, in the buffers of a [`RowBuilder`].
#[derive(Clone, Copy, Debug, Eq, Hash, PartialEq)]
pub struct Rows<'a> {
    /// Where the state goes on each ASCII symbol.
    pub ascii: &'a [u16; ASCII_TARGETS],
    /// Where it goes on other code points: low, high and target of each range, ascending.
    pub wide: &'a [[u32; 3]],
    /// Where it continues: low, high and continuation of each range, ascending, ASCII among them.
    pub escape: &'a [[u32; 3]],
}

impl RowBuilder {
    /// A builder with buffers of the lengths that the calls ask for.
    pub fn new() -> RowBuilder {
        RowBuilder {
            segments: vec![0; SEGMENT_NUMBERS],
            masks: vec![0; MASK_WORDS],
            distinct: vec![0; MASK_WORDS],
            ascii: [0; ASCII_TARGETS],
            wide: vec![0; ROW_NUMBERS],
            escape: vec![0; ROW_NUMBERS],
        }
    }

    /// The distinct masks of a list, each of which is to be given a target: one word for 64
    /// transitions. ROOM is never met.
    pub fn distinct_masks(&mut self, list: &[u8]) -> Result<impl Iterator<Item = &[u64]>, Refusal> {
        let RowBuilder { segments, masks, distinct, .. } = self;
        let Masked { masks, words } = distinct_masks(list, segments, masks, distinct)?;
        // An empty list has masks of no words, and none of them.
        Ok(distinct[..masks * words].chunks(words.max(1)))
    }

    /// The rows of a list whose distinct masks were given these. ROOM is never met.
    pub fn build(
        &mut self,
        list: &[u8],
        targets: &[u16],
        continuations: &[u32],
    ) -> Result<Rows<'_>, Refusal> {
        let RowBuilder { segments, masks, distinct, ascii, wide, escape } = self;
        let lent = RowBuffers { segments, masks, distinct, ascii, wide, escape };
        let built = build_rows(list, targets, continuations, lent)?;
        Ok(Rows {
            ascii: &self.ascii,
            wide: self.wide[..built.wide].as_chunks().0,
            escape: self.escape[..built.escape].as_chunks().0,
        })
    }
}

impl Default for RowBuilder {
    fn default() -> RowBuilder {
        RowBuilder::new()
    }
}

fn counted(answer: ffi::TransitionsAnswer) -> Result<Counted, Refusal> {
    Refusal::unless_accepted(answer.number, answer.item, answer.place)?;
    Ok(Counted { transitions: answer.transitions, intervals: answer.intervals })
}

fn masked(answer: ffi::MasksAnswer) -> Result<Masked, Refusal> {
    Refusal::unless_accepted(answer.number, answer.item, answer.place)?;
    Ok(Masked { masks: answer.masks, words: answer.words })
}
