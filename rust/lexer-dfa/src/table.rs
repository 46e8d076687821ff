//! Tables: a lexer's words, decoded into a room, and encoded again.

use crate::{AcceptRecord, AsciiRun, AsciiRunScan, ContinuationRecord, Refusal, ffi, lookup};
use std::fmt;

/// The most words that a table may have.
pub const MAX_WORDS: usize = 8192;

/// The numbers that a table's room must have, whatever the table.
pub const ROOM_NUMBERS: usize = 16_384;

/// The target of an edge that the interpreter has to follow, by a continuation.
pub const ESCAPE_STATE: u16 = 65534;

/// The target of an edge that leads nowhere.
pub const DEAD_STATE: u16 = 65535;

/// Where a table's words begin in its room: behind their number and the places of the sections.
const WORDS_AT: usize = 9;

/// What was decoded.
#[derive(Clone, Copy, Debug, Eq, Hash, PartialEq)]
pub struct Decoded {
    /// How many modes the lexer has, those that are not compiled among them.
    pub modes: usize,
    /// How many states the modes have together.
    pub states: usize,
    /// How many words the table has.
    pub words: usize,
}

/// A table with a room of its own.
///
/// ```
/// use lexer_dfa::Table;
///
/// // One mode; one state, which loops on every ASCII symbol: its run is `any`, its row all 0.
/// const NONE: u32 = u32::MAX;
/// let modes = [1, 0];
/// let states = [1, 0, 0, 65535, NONE];
/// let runs = [1, 1];
/// let mut ascii_rows = [0; 65];
/// ascii_rows[0] = 1;
/// let wide_rows = [1, 0];
/// let accepts = [0];
/// let escape_rows = [1, NONE, 0];
/// let continuations = [0];
/// let words = [
///     &[0x4C44_0001][..], &modes, &states, &runs, &ascii_rows, &wide_rows, &accepts, &escape_rows,
///     &continuations,
/// ]
/// .concat();
///
/// let table = Table::decode(&words)?;
/// assert_eq!((table.modes(), table.states(), table.words().len()), (1, 1, 82));
///
/// let start = table.mode_start(0)?.unwrap();
/// assert_eq!(table.char_target(start, 'p' as i32)?, start);
/// assert_eq!(table.char_target(start, '°' as i32)?, lexer_dfa::DEAD_STATE);
/// assert_eq!(table.scan(start, b"10 ply")?, Some(&b"10 ply"[..]));
/// assert_eq!(table.coverage(start)?, 128);
/// # Ok::<(), lexer_dfa::Refusal>(())
/// ```
#[derive(Clone, Eq, PartialEq)]
pub struct Table {
    room: Box<[u32]>,
    decoded: Decoded,
}

impl Table {
    /// The table whose words these are. What is refused, and where, is told by [`decode_into`];
    /// ROOM is never met.
    ///
    /// ```
    /// use lexer_dfa::Table;
    /// // The empty table: the tag, and eight sections with nothing in them.
    /// let words = [0x4C44_0001, 0, 0, 0, 0, 0, 0, 0, 0];
    /// assert_eq!(Table::decode(&words)?.states(), 0);
    /// assert_eq!(Table::decode(&words[..8]).unwrap_err().to_string(), "refusal 1 SHORT at 8");
    /// # Ok::<(), lexer_dfa::Refusal>(())
    /// ```
    pub fn decode(words: &[u32]) -> Result<Table, Refusal> {
        let mut room = vec![0; ROOM_NUMBERS].into_boxed_slice();
        let decoded = decode_into(words, &mut room)?;
        Ok(Table { room, decoded })
    }

    /// How many modes the lexer has, those that are not compiled among them.
    pub fn modes(&self) -> usize {
        self.decoded.modes
    }

    /// How many states the modes have together.
    pub fn states(&self) -> usize {
        self.decoded.states
    }

    /// The words that were decoded, every flag that was set made 1.
    pub fn words(&self) -> &[u32] {
        &self.room[WORDS_AT..WORDS_AT + self.decoded.words]
    }

    /// The room, [`ROOM_NUMBERS`] long.
    pub fn room(&self) -> &[u32] {
        &self.room
    }

    /// Writes the words, every flag that was set made 1, and 0 behind them; and answers how many
    /// there are. ROOM at 0 where fewer numbers are lent than there are words, and nothing else is
    /// refused; then all numbers lent are 0.
    pub fn encode_into(&self, out: &mut [u32]) -> Result<usize, Refusal> {
        encode_into(&self.room, out)
    }

    /// The same words, in a list of their own.
    pub fn encode(&self) -> Vec<u32> {
        let mut out = vec![0; self.decoded.words];
        // A decoded table is never refused, and there is a number for each word.
        let _ = self.encode_into(&mut out);
        out
    }

    /// Whether at least one mode is compiled.
    pub fn has_compiled_modes(&self) -> bool {
        lookup::has_compiled_modes(&self.room) == Ok(true)
    }

    /// For each mode whether it is compiled.
    pub fn compiled_mode_flags(&self) -> Vec<bool> {
        let mut flags = vec![0; self.modes()];
        // A decoded table is never refused, and there is a number for each mode.
        let _ = lookup::compiled_mode_flags(&self.room, &mut flags);
        flags.into_iter().map(|flag| flag != 0).collect()
    }

    /// For each compiled mode how many states it has. ORDER at the first mode that starts below the
    /// compiled one before it.
    pub fn mode_state_counts(&self) -> Result<Vec<u32>, Refusal> {
        let mut counts = vec![0; self.modes()];
        let length = lookup::mode_state_counts(&self.room, &mut counts)?;
        counts.truncate(length);
        Ok(counts)
    }

    /// The state in which a mode starts; nothing for a mode that is negative, absent or not
    /// compiled. Never refused.
    #[inline]
    pub fn mode_start(&self, mode: i32) -> Result<Option<u16>, Refusal> {
        lookup::mode_start(&self.room, mode)
    }

    /// The number of a state's accept. Here and below, an absent state is refused with STATE at 0,
    /// and nothing else is.
    #[inline]
    pub fn accept(&self, state: u16) -> Result<Option<u32>, Refusal> {
        lookup::accept(&self.room, state)
    }

    /// Where a state goes on a symbol of 0 to 127; any other is STATE too.
    #[inline]
    pub fn ascii_target(&self, state: u16, symbol: u8) -> Result<u16, Refusal> {
        lookup::ascii_target(&self.room, state, symbol)
    }

    /// Where a state goes on a character, or on any number; a negative one is read as unsigned.
    #[inline]
    pub fn char_target(&self, state: u16, symbol: i32) -> Result<u16, Refusal> {
        lookup::char_target(&self.room, state, symbol)
    }

    /// Where a state goes at the end of the input.
    #[inline]
    pub fn eof_target(&self, state: u16) -> Result<u16, Refusal> {
        lookup::eof_target(&self.room, state)
    }

    /// The number of a state's continuation on a character, ASCII among them.
    #[inline]
    pub fn char_continuation(&self, state: u16, symbol: i32) -> Result<Option<u32>, Refusal> {
        lookup::char_continuation(&self.room, state, symbol)
    }

    /// The number of a state's continuation at the end of the input.
    #[inline]
    pub fn eof_continuation(&self, state: u16) -> Result<Option<u32>, Refusal> {
        lookup::eof_continuation(&self.room, state)
    }

    /// How many code points from 0 to 0x10FFFF are not dead in a state.
    pub fn coverage(&self, state: u16) -> Result<u32, Refusal> {
        lookup::coverage(&self.room, state)
    }

    /// The run of a state.
    pub fn ascii_run(&self, state: u16) -> Result<AsciiRun, Refusal> {
        lookup::ascii_run(&self.room, state)
    }

    /// The bytes at the front of the input that a state's run skips: a part of the input itself.
    /// Nothing where the state has no run, which a run of no bytes is not.
    #[inline]
    pub fn scan<'a>(&self, state: u16, input: &'a [u8]) -> Result<Option<&'a [u8]>, Refusal> {
        lookup::scan(&self.room, state, input)
    }

    /// How many bytes a state's run skips, and whether a byte that ends it was found there.
    #[inline]
    pub fn scan_length(&self, state: u16, input: &[u8]) -> Result<Option<AsciiRunScan>, Refusal> {
        lookup::scan_length(&self.room, state, input)
    }

    /// The accept of that number, where there is one. Never refused.
    pub fn accept_record(&self, accept: u32) -> Result<Option<AcceptRecord<'_>>, Refusal> {
        lookup::accept_record(&self.room, accept)
    }

    /// The continuation of that number, where there is one. Never refused.
    pub fn continuation_record(
        &self,
        continuation: u32,
    ) -> Result<Option<ContinuationRecord<'_>>, Refusal> {
        lookup::continuation_record(&self.room, continuation)
    }
}

impl fmt::Debug for Table {
    fn fmt(&self, f: &mut fmt::Formatter<'_>) -> fmt::Result {
        f.debug_tuple("Table").field(&self.decoded).finish()
    }
}

/// Decodes a table into a room that is lent, for a caller that has no heap or keeps one room for
/// many tables. What the room held before does not matter.
///
/// | refused with | where | place |
/// |---|---|---|
/// | ROOM | the room has fewer than [`ROOM_NUMBERS`] numbers | 0 |
/// | LIMIT | there are more than [`MAX_WORDS`] words | 8192 |
/// | SHORT | the words end inside a record or before a section | the number of words |
/// | TAG | the first word is not 0x4C440001 | 0 |
/// | FIELD | a word has a value that its field forbids | the word |
/// | LEFT | words remain behind the last section | the first of them |
/// | INDEX | the words read well, and an index rule is broken | the rule's number, 1 to 9 |
///
/// Of INDEX the refusal's [item](Refusal::item) is the first mode, state, row or continuation that
/// breaks the rule. For rules 3 and 7 it is 0, and for all other refusals.
///
/// Then the whole room is 0, whatever its length. Accepted, the room holds the table, and 0 behind
/// it.
///
/// ```
/// use lexer_dfa::{ROOM_NUMBERS, decode_into};
///
/// let words = [0x4C44_0001, 0, 0, 0, 0, 0, 0, 0, 0];
/// let mut room = [7; ROOM_NUMBERS];
/// assert_eq!(decode_into(&words, &mut room)?.words, 9);
/// assert_eq!(room[0], 9);
///
/// let refusal = decode_into(&words, &mut room[1..]).unwrap_err();
/// assert_eq!(refusal.name(), "ROOM");
/// assert_eq!(room[1..], [0; ROOM_NUMBERS - 1]);
/// # Ok::<(), lexer_dfa::Refusal>(())
/// ```
pub fn decode_into(words: &[u32], room: &mut [u32]) -> Result<Decoded, Refusal> {
    let answer = ffi::decode(words, room);
    Refusal::unless_accepted(answer.number, answer.item, answer.place)?;
    let (modes, states) = (answer.modes as usize, answer.states as usize);
    Ok(Decoded { modes, states, words: answer.words })
}

/// Encodes the table in a room: writes its words, flags 0 or 1, and 0 behind them; and answers how
/// many there are. The room may be any.
///
/// | refused with | where | place |
/// |---|---|---|
/// | NOT-TABLE | the room is not what decoding leaves for some accepted words | 0 |
/// | ROOM | fewer numbers are lent than there are words | 0 |
///
/// Then all numbers lent are 0.
///
/// ```
/// use lexer_dfa::{ROOM_NUMBERS, decode_into, encode_into};
///
/// // An accept's flag is any word; set, it comes back as 1.
/// let words = [0x4C44_0001, 0, 0, 0, 0, 0, 1, 5, 7, 0, 0, 0];
/// let mut room = [0; ROOM_NUMBERS];
/// decode_into(&words, &mut room)?;
/// let mut out = [9; 13];
/// assert_eq!(encode_into(&room, &mut out)?, 12);
/// assert_eq!(out, [0x4C44_0001, 0, 0, 0, 0, 0, 1, 5, 1, 0, 0, 0, 0]);
///
/// assert_eq!(encode_into(&room, &mut out[..11]).unwrap_err().name(), "ROOM");
/// room[ROOM_NUMBERS - 1] = 1;
/// assert_eq!(encode_into(&room, &mut out).unwrap_err().name(), "NOT-TABLE");
/// assert_eq!(out, [0; 13]);
/// # Ok::<(), lexer_dfa::Refusal>(())
/// ```
pub fn encode_into(room: &[u32], out: &mut [u32]) -> Result<usize, Refusal> {
    let answer = ffi::encode(room, out);
    Refusal::unless_accepted(answer.number, answer.item, answer.place)?;
    Ok(answer.length)
}
