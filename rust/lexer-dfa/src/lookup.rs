//! Lookups in a room, of any length and with any numbers.
//!
//! A room that [`decode_into`](crate::decode_into) has filled is a table, and [`Table`](crate::Table)
//! has the same calls. On any other room a lookup answers what the numbers say that it follows, or is
//! refused with NOT-TABLE where they lead outside the room or their section, or are not allowed where
//! they stand. NOT-TABLE comes before STATE, which an absent state is refused with; both are at 0.
//!
//! ```
//! use lexer_dfa::{DEAD_STATE, ROOM_NUMBERS, decode_into, lookup};
//!
//! let words = [0x4C44_0001, 2, u32::MAX, u32::MAX, 0, 0, 0, 0, 0, 0, 0];
//! let mut room = [0; ROOM_NUMBERS];
//! decode_into(&words, &mut room)?;
//! assert_eq!(lookup::mode_start(&room, 1), Ok(None));
//! assert_eq!(lookup::accept(&room, 0).unwrap_err().name(), "STATE");
//! assert_eq!(lookup::accept(&room[..8], 0).unwrap_err().name(), "NOT-TABLE");
//! # Ok::<(), lexer_dfa::Refusal>(())
//! ```

use crate::{AsciiRun, AsciiRunScan, Refusal, ffi};

/// The number that stands for nothing: no start, no accept, no continuation.
pub(crate) const NONE: u32 = u32::MAX;

/// An accept: what a state accepts.
#[derive(Clone, Copy, Debug, Eq, Hash, PartialEq)]
pub struct AcceptRecord<'a> {
    /// The rule.
    pub rule: u32,
    /// Whether the end of the input was consumed.
    pub consumed_eof: bool,
    /// The actions, a part of the room.
    pub actions: &'a [[u32; 3]],
}

/// A continuation: where the interpreter goes on.
#[derive(Clone, Copy, Debug, Eq, Hash, PartialEq)]
pub struct ContinuationRecord<'a> {
    /// The contexts, kind 0 or 1 and two numbers each: a part of the room.
    pub contexts: &'a [[u32; 3]],
    /// How many configs there are.
    pub config_count: u32,
    /// The configs, a part of the room. Each is its state, its alternative rule or 4294967295, two
    /// flags, its context, the number of its actions, and those, of three numbers each.
    pub configs: &'a [u32],
}

#[inline]
fn value(answer: ffi::LookupAnswer) -> Result<u32, Refusal> {
    Refusal::unless_accepted(answer.number, 0, 0)?;
    Ok(answer.value)
}

#[inline]
fn unless_none(answer: ffi::LookupAnswer) -> Result<Option<u32>, Refusal> {
    let value = value(answer)?;
    Ok((value != NONE).then_some(value))
}

/// A target is at most 65535.
#[inline]
fn target(answer: ffi::LookupAnswer) -> Result<u16, Refusal> {
    Ok(value(answer)? as u16)
}

fn listed(answer: ffi::ListAnswer) -> Result<usize, Refusal> {
    Refusal::unless_accepted(answer.number, answer.item, answer.place)?;
    Ok(answer.length)
}

fn part(room: &[u32], span: ffi::Span) -> &[u32] {
    &room[span.from..span.from + span.length]
}

fn threes(room: &[u32], span: ffi::Span) -> &[[u32; 3]] {
    part(room, span).as_chunks().0
}

/// Whether at least one mode is compiled.
pub fn has_compiled_modes(room: &[u32]) -> Result<bool, Refusal> {
    Ok(value(ffi::has_compiled_modes(room))? != 0)
}

/// How many states there are.
pub fn state_count(room: &[u32]) -> Result<u32, Refusal> {
    value(ffi::state_count(room))
}

/// Writes 1 for each mode that is compiled, else 0, and 0 behind them; and answers how many there
/// are. After NOT-TABLE, ROOM at 0 where fewer numbers are lent than there are modes. Refused, all
/// numbers lent are 0.
pub fn compiled_mode_flags(room: &[u32], out: &mut [u32]) -> Result<usize, Refusal> {
    listed(ffi::compiled_mode_flags(room, out))
}

/// Writes for each compiled mode how many states it has, and 0 behind them; and answers how many
/// there are. After NOT-TABLE, ROOM at 0 where fewer numbers are lent than modes are compiled; then
/// ORDER at the first mode that starts below the compiled one before it. Refused, all numbers lent
/// are 0.
pub fn mode_state_counts(room: &[u32], out: &mut [u32]) -> Result<usize, Refusal> {
    listed(ffi::mode_state_counts(room, out))
}

/// The state in which a mode starts; nothing for a mode that is negative, absent or not compiled.
#[inline]
pub fn mode_start(room: &[u32], mode: i32) -> Result<Option<u16>, Refusal> {
    Ok(unless_none(ffi::mode_start(room, mode))?.map(|start| start as u16))
}

/// The number of a state's accept.
#[inline]
pub fn accept(room: &[u32], state: u16) -> Result<Option<u32>, Refusal> {
    unless_none(ffi::accept(room, state))
}

/// Where a state goes on a symbol of 0 to 127; any other is STATE.
#[inline]
pub fn ascii_target(room: &[u32], state: u16, symbol: u8) -> Result<u16, Refusal> {
    target(ffi::ascii_target(room, state, symbol))
}

/// Where a state goes on a character, or on any number; a negative one is read as unsigned.
#[inline]
pub fn char_target(room: &[u32], state: u16, symbol: i32) -> Result<u16, Refusal> {
    target(ffi::char_target(room, state, symbol))
}

/// Where a state goes at the end of the input.
#[inline]
pub fn eof_target(room: &[u32], state: u16) -> Result<u16, Refusal> {
    target(ffi::eof_target(room, state))
}

/// The number of a state's continuation on a character, ASCII among them.
#[inline]
pub fn char_continuation(room: &[u32], state: u16, symbol: i32) -> Result<Option<u32>, Refusal> {
    unless_none(ffi::char_continuation(room, state, symbol))
}

/// The number of a state's continuation at the end of the input.
#[inline]
pub fn eof_continuation(room: &[u32], state: u16) -> Result<Option<u32>, Refusal> {
    unless_none(ffi::eof_continuation(room, state))
}

/// How many code points from 0 to 0x10FFFF are not dead in a state. The whole room is judged first:
/// NOT-TABLE exactly when it is not what decoding leaves for some accepted words.
pub fn coverage(room: &[u32], state: u16) -> Result<u32, Refusal> {
    value(ffi::coverage(room, state))
}

/// The run of a state.
pub fn ascii_run(room: &[u32], state: u16) -> Result<AsciiRun, Refusal> {
    AsciiRun::from_answer(ffi::ascii_run(room, state))
}

/// The bytes at the front of the input that a state's run skips: a part of the input itself.
/// Nothing where the state has no run, which a run of no bytes is not.
#[inline]
pub fn scan<'a>(room: &[u32], state: u16, input: &'a [u8]) -> Result<Option<&'a [u8]>, Refusal> {
    let scan = scan_length(room, state, input)?;
    Ok(scan.map(|scan| &input[..scan.bytes]))
}

/// How many bytes a state's run skips, and whether a byte that ends it was found there.
#[inline]
pub fn scan_length(
    room: &[u32],
    state: u16,
    input: &[u8],
) -> Result<Option<AsciiRunScan>, Refusal> {
    let answer = ffi::scan_ascii_run(room, state, input);
    Refusal::unless_accepted(answer.number, 0, 0)?;
    let scan = AsciiRunScan { bytes: answer.bytes, found_exit: answer.stop == 2 };
    Ok((answer.stop != 0).then_some(scan))
}

/// The accept of that number, where there is one.
pub fn accept_record(room: &[u32], accept: u32) -> Result<Option<AcceptRecord<'_>>, Refusal> {
    let answer = ffi::accept_record(room, accept);
    Refusal::unless_accepted(answer.number, 0, 0)?;
    Ok((answer.found != 0).then(|| AcceptRecord {
        rule: answer.rule,
        consumed_eof: answer.consumed_eof != 0,
        actions: threes(room, ffi::accept_actions(room, accept)),
    }))
}

/// The continuation of that number, where there is one.
pub fn continuation_record(
    room: &[u32],
    continuation: u32,
) -> Result<Option<ContinuationRecord<'_>>, Refusal> {
    let answer = ffi::continuation_record(room, continuation);
    Refusal::unless_accepted(answer.number, 0, 0)?;
    Ok((answer.found != 0).then(|| ContinuationRecord {
        contexts: threes(room, ffi::continuation_contexts(room, continuation)),
        config_count: answer.configs,
        configs: part(room, ffi::continuation_configs(room, continuation)),
    }))
}
