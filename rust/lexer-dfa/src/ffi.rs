//! The C face, as `include/lexer_dfa.h` has it, and the same calls over slices. All unsafe code of
//! the crate is here.
//!
//! The proved functions take any words, bytes and lengths. All they ask of a caller is what a
//! slice gives: a pointer and a length that describe numbers which live, unchanged, for the call;
//! and of a room that is written, that the call has it alone.

use crate::rows::RowBuffers;

#[repr(C)]
pub struct ClassAnswer {
    pub number: u32,
    pub item: u32,
    pub place: usize,
    pub class: u32,
}

#[repr(C)]
pub struct RunAnswer {
    pub number: u32,
    pub item: u32,
    pub place: usize,
    pub length: usize,
    pub first: u32,
    pub second: u32,
    pub third: u32,
}

#[repr(C)]
pub struct ScanAnswer {
    pub number: u32,
    pub item: u32,
    pub place: usize,
    pub ran: u32,
    pub bytes: usize,
    pub found_exit: u32,
}

#[repr(C)]
pub struct DecodeAnswer {
    pub number: u32,
    pub item: u32,
    pub place: usize,
    pub modes: u32,
    pub states: u32,
    pub words: usize,
}

#[repr(C)]
pub struct LookupAnswer {
    pub value: u32,
    pub number: u32,
}

#[repr(C)]
pub struct ListAnswer {
    pub number: u32,
    pub item: u32,
    pub place: usize,
    pub length: usize,
}

#[repr(C)]
pub struct StateScanAnswer {
    pub bytes: usize,
    pub number: u32,
    pub stop: u32,
}

#[repr(C)]
pub struct Span {
    pub from: usize,
    pub length: usize,
}

#[repr(C)]
pub struct AcceptAnswer {
    pub number: u32,
    pub found: u32,
    pub rule: u32,
    pub consumed_eof: u32,
    pub actions: u32,
}

#[repr(C)]
pub struct ContinuationAnswer {
    pub number: u32,
    pub found: u32,
    pub contexts: u32,
    pub configs: u32,
}

#[repr(C)]
pub struct TransitionsAnswer {
    pub number: u32,
    pub item: u32,
    pub place: usize,
    pub transitions: usize,
    pub intervals: usize,
}

#[repr(C)]
pub struct SegmentsAnswer {
    pub number: u32,
    pub item: u32,
    pub place: usize,
    pub segments: usize,
}

#[repr(C)]
pub struct MasksAnswer {
    pub number: u32,
    pub item: u32,
    pub place: usize,
    pub masks: usize,
    pub words: usize,
}

#[repr(C)]
pub struct RowsAnswer {
    pub number: u32,
    pub item: u32,
    pub place: usize,
    pub wide: usize,
    pub escape: usize,
}

#[repr(C)]
pub struct InternAnswer {
    pub row: usize,
    pub number: u32,
}

unsafe extern "C" {
    safe fn lexer_dfa_class_of_byte(byte: u8) -> u32;
    fn lexer_dfa_class(words: *const u32, len: usize) -> ClassAnswer;
    fn lexer_dfa_classify(row: *const u16, len: usize, state: u16) -> RunAnswer;
    fn lexer_dfa_read_run(words: *const u32, len: usize, at: usize) -> RunAnswer;
    fn lexer_dfa_scan(
        words: *const u32,
        len: usize,
        input: *const u8,
        input_len: usize,
    ) -> ScanAnswer;
    fn lexer_dfa_decode(
        words: *const u32,
        len: usize,
        room: *mut u32,
        room_len: usize,
    ) -> DecodeAnswer;
    fn lexer_dfa_scan_ascii_run(
        room: *const u32,
        len: usize,
        state: u16,
        input: *const u8,
        input_len: usize,
    ) -> StateScanAnswer;
    fn lexer_dfa_read_transitions(list: *const u8, len: usize) -> TransitionsAnswer;
    fn lexer_dfa_read_intervals(
        list: *const u8,
        len: usize,
        out: *mut u32,
        out_len: usize,
    ) -> TransitionsAnswer;
    fn lexer_dfa_char_segments(
        list: *const u8,
        len: usize,
        out: *mut u32,
        out_len: usize,
    ) -> SegmentsAnswer;
    fn lexer_dfa_segment_mask_matrix(
        list: *const u8,
        len: usize,
        segments: *mut u32,
        segments_len: usize,
        masks: *mut u64,
        masks_len: usize,
    ) -> MasksAnswer;
    fn lexer_dfa_distinct_masks(
        list: *const u8,
        len: usize,
        segments: *mut u32,
        segments_len: usize,
        masks: *mut u64,
        masks_len: usize,
        distinct: *mut u64,
        distinct_len: usize,
    ) -> MasksAnswer;
    fn lexer_dfa_build_rows(
        list: *const u8,
        len: usize,
        targets: *const u16,
        targets_len: usize,
        continuations: *const u32,
        continuations_len: usize,
        segments: *mut u32,
        segments_len: usize,
        masks: *mut u64,
        masks_len: usize,
        distinct: *mut u64,
        distinct_len: usize,
        ascii: *mut u16,
        ascii_len: usize,
        wide: *mut u32,
        wide_len: usize,
        escape: *mut u32,
        escape_len: usize,
    ) -> RowsAnswer;
    fn lexer_dfa_intern_ascii(
        pool: *mut u16,
        pool_len: usize,
        rows: usize,
        row: *const u16,
        row_len: usize,
    ) -> InternAnswer;
    fn lexer_dfa_intern_wide(
        pool: *mut u32,
        pool_len: usize,
        rows: usize,
        row: *const u32,
        row_len: usize,
    ) -> InternAnswer;
}

pub fn class_of_byte(byte: u8) -> u32 {
    lexer_dfa_class_of_byte(byte)
}

pub fn class(words: &[u32]) -> ClassAnswer {
    // SAFETY: pointer and length are those of a live slice, only read; all values are taken.
    unsafe { lexer_dfa_class(words.as_ptr(), words.len()) }
}

pub fn classify(row: &[u16], state: u16) -> RunAnswer {
    // SAFETY: pointer and length are those of a live slice, only read; all values are taken.
    unsafe { lexer_dfa_classify(row.as_ptr(), row.len(), state) }
}

pub fn read_run(words: &[u32], at: usize) -> RunAnswer {
    // SAFETY: pointer and length are those of a live slice, only read; all values are taken, and
    // so is every place, inside the slice or past it.
    unsafe { lexer_dfa_read_run(words.as_ptr(), words.len(), at) }
}

pub fn scan(words: &[u32], input: &[u8]) -> ScanAnswer {
    // SAFETY: both pointers and lengths are those of live slices, only read; all values are taken.
    unsafe { lexer_dfa_scan(words.as_ptr(), words.len(), input.as_ptr(), input.len()) }
}

pub fn decode(words: &[u32], room: &mut [u32]) -> DecodeAnswer {
    // SAFETY: the words are a live slice, only read; the room is another, which the call has alone
    // and writes within its length. All values are taken, and every length of either.
    unsafe { lexer_dfa_decode(words.as_ptr(), words.len(), room.as_mut_ptr(), room.len()) }
}

#[inline]
pub fn scan_ascii_run(room: &[u32], state: u16, input: &[u8]) -> StateScanAnswer {
    // SAFETY: both pointers and lengths are those of live slices, only read; all values are taken.
    unsafe {
        lexer_dfa_scan_ascii_run(room.as_ptr(), room.len(), state, input.as_ptr(), input.len())
    }
}

pub fn read_transitions(list: &[u8]) -> TransitionsAnswer {
    // SAFETY: pointer and length are those of a live slice, only read; all bytes are taken.
    unsafe { lexer_dfa_read_transitions(list.as_ptr(), list.len()) }
}

pub fn read_intervals(list: &[u8], out: &mut [u32]) -> TransitionsAnswer {
    // SAFETY: the list is a live slice, only read; the buffer is another, which the call has alone
    // and writes within its length. All bytes are taken, and every length of either.
    unsafe { lexer_dfa_read_intervals(list.as_ptr(), list.len(), out.as_mut_ptr(), out.len()) }
}

pub fn char_segments(list: &[u8], out: &mut [u32]) -> SegmentsAnswer {
    // SAFETY: as above.
    unsafe { lexer_dfa_char_segments(list.as_ptr(), list.len(), out.as_mut_ptr(), out.len()) }
}

pub fn segment_mask_matrix(list: &[u8], segments: &mut [u32], masks: &mut [u64]) -> MasksAnswer {
    // SAFETY: the list is a live slice, only read; the buffers are others, which the call has alone
    // and writes within their lengths. All bytes are taken, and every length.
    unsafe {
        lexer_dfa_segment_mask_matrix(
            list.as_ptr(),
            list.len(),
            segments.as_mut_ptr(),
            segments.len(),
            masks.as_mut_ptr(),
            masks.len(),
        )
    }
}

pub fn distinct_masks(
    list: &[u8],
    segments: &mut [u32],
    masks: &mut [u64],
    distinct: &mut [u64],
) -> MasksAnswer {
    // SAFETY: as above.
    unsafe {
        lexer_dfa_distinct_masks(
            list.as_ptr(),
            list.len(),
            segments.as_mut_ptr(),
            segments.len(),
            masks.as_mut_ptr(),
            masks.len(),
            distinct.as_mut_ptr(),
            distinct.len(),
        )
    }
}

pub fn build_rows(
    list: &[u8],
    targets: &[u16],
    continuations: &[u32],
    lent: RowBuffers<'_>,
) -> RowsAnswer {
    let RowBuffers { segments, masks, distinct, ascii, wide, escape } = lent;
    // SAFETY: list, targets and continuations are live slices, only read; the buffers are others,
    // which the call has alone and writes within their lengths. All values are taken, and every
    // length.
    unsafe {
        lexer_dfa_build_rows(
            list.as_ptr(),
            list.len(),
            targets.as_ptr(),
            targets.len(),
            continuations.as_ptr(),
            continuations.len(),
            segments.as_mut_ptr(),
            segments.len(),
            masks.as_mut_ptr(),
            masks.len(),
            distinct.as_mut_ptr(),
            distinct.len(),
            ascii.as_mut_ptr(),
            ascii.len(),
            wide.as_mut_ptr(),
            wide.len(),
            escape.as_mut_ptr(),
            escape.len(),
        )
    }
}

pub fn intern_ascii(pool: &mut [u16], rows: usize, row: &[u16]) -> InternAnswer {
    // SAFETY: the row is a live slice, only read; the pool is another, which the call has alone and
    // writes within its length. All values are taken, every length, and every number of rows.
    unsafe { lexer_dfa_intern_ascii(pool.as_mut_ptr(), pool.len(), rows, row.as_ptr(), row.len()) }
}

pub fn intern_wide(pool: &mut [u32], rows: usize, row: &[u32]) -> InternAnswer {
    // SAFETY: as above.
    unsafe { lexer_dfa_intern_wide(pool.as_mut_ptr(), pool.len(), rows, row.as_ptr(), row.len()) }
}

/// The lookups that take a room and at most two numbers.
macro_rules! lookups {
    ($($call:ident as $name:ident($($argument:ident: $number:ty),*) -> $answer:ty;)*) => {
        unsafe extern "C" {
            $(fn $call(room: *const u32, len: usize, $($argument: $number),*) -> $answer;)*
        }
        $(#[inline]
        pub fn $name(room: &[u32], $($argument: $number),*) -> $answer {
            // SAFETY: pointer and length are those of a live slice, only read; all values are
            // taken, and every number beside it.
            unsafe { $call(room.as_ptr(), room.len(), $($argument),*) }
        })*
    };
}

lookups! {
    lexer_dfa_has_compiled_modes as has_compiled_modes() -> LookupAnswer;
    lexer_dfa_state_count as state_count() -> LookupAnswer;
    lexer_dfa_mode_start as mode_start(mode: i32) -> LookupAnswer;
    lexer_dfa_ascii_target as ascii_target(state: u16, symbol: u8) -> LookupAnswer;
    lexer_dfa_char_target as char_target(state: u16, symbol: i32) -> LookupAnswer;
    lexer_dfa_eof_target as eof_target(state: u16) -> LookupAnswer;
    lexer_dfa_accept as accept(state: u16) -> LookupAnswer;
    lexer_dfa_char_continuation as char_continuation(state: u16, symbol: i32) -> LookupAnswer;
    lexer_dfa_eof_continuation as eof_continuation(state: u16) -> LookupAnswer;
    lexer_dfa_coverage as coverage(state: u16) -> LookupAnswer;
    lexer_dfa_ascii_run as ascii_run(state: u16) -> RunAnswer;
    lexer_dfa_accept_record as accept_record(accept: u32) -> AcceptAnswer;
    lexer_dfa_accept_actions as accept_actions(accept: u32) -> Span;
    lexer_dfa_continuation_record as continuation_record(continuation: u32) -> ContinuationAnswer;
    lexer_dfa_continuation_contexts as continuation_contexts(continuation: u32) -> Span;
    lexer_dfa_continuation_configs as continuation_configs(continuation: u32) -> Span;
}

/// The calls that take a room and write a list into a buffer.
macro_rules! lists {
    ($($call:ident as $name:ident;)*) => {
        unsafe extern "C" {
            $(fn $call(room: *const u32, len: usize, out: *mut u32, out_len: usize)
                -> ListAnswer;)*
        }
        $(pub fn $name(room: &[u32], out: &mut [u32]) -> ListAnswer {
            // SAFETY: the room is a live slice, only read; the buffer is another, which the call
            // has alone and writes within its length. All values are taken, and every length.
            unsafe { $call(room.as_ptr(), room.len(), out.as_mut_ptr(), out.len()) }
        })*
    };
}

lists! {
    lexer_dfa_compiled_mode_flags as compiled_mode_flags;
    lexer_dfa_mode_state_counts as mode_state_counts;
    lexer_dfa_encode as encode;
}

#[cfg(test)]
mod tests {
    use super::*;
    use std::mem::offset_of;

    /// What the header promises of a refused answer: every other field is 0.
    #[test]
    fn a_refused_answer_is_empty() {
        let mut row = [0; 129];
        row[48..58].fill(7);
        for length in [0, 58, 127, 129] {
            let answer = classify(&row[..length], 7);
            assert_eq!((answer.number, answer.item, answer.place, answer.length), (3, 0, 0, 0));
            assert_eq!([answer.first, answer.second, answer.third], [0; 3]);
        }
        let words: [&[u32]; 5] = [&[], &[261, 14640], &[261, 14640, 1], &[6], &[8706, 0]];
        for words in words {
            let answer = class(words);
            assert_eq!((answer.number, answer.item, answer.place, answer.class), (3, 0, 0, 0));
            let answer = scan(words, b"10 ply");
            assert_eq!((answer.number, answer.item, answer.place, answer.bytes), (3, 0, 0, 0));
            assert_eq!((answer.ran, answer.found_exit), (0, 0));
        }
        for words in &words[..4] {
            let answer = read_run(words, 0);
            assert!(matches!(answer.number, 1 | 3));
            assert_eq!(answer.length, 0);
            assert_eq!([answer.first, answer.second, answer.third], [0; 3]);
        }
    }

    /// A refused table leaves no number behind, in the answer or in the room.
    #[test]
    fn a_refused_table_is_empty() {
        let words = [0x4C44_0001, 0, 0, 0, 0, 0, 0, 0, 0, 0];
        for (length, room_length) in [(8, 16_384), (10, 16_384), (9, 16_383), (9, 5), (9, 0)] {
            let mut room = vec![7; room_length];
            let answer = decode(&words[..length], &mut room);
            assert_ne!(answer.number, 0);
            assert_eq!(answer.item, 0);
            assert_eq!((answer.modes, answer.states, answer.words), (0, 0, 0));
            assert!(room.iter().all(|&number| number == 0));
        }
    }

    /// A table that breaks a rule has the item that breaks it, and nothing else of the table is left.
    #[test]
    fn a_broken_rule_has_its_item() {
        // Of three modes the second starts at a state that is not there, and so does the third.
        let modes = [0x4C44_0001, 3, u32::MAX, 0, 5, 0, 0, 0, 0, 0, 0, 0];
        // Two escape rows, and no states.
        let escape_rows = [0x4C44_0001, 0, 0, 0, 0, 0, 0, 2, 9, 0, 9, 0, 0];
        // Of two continuations the second has a context that refers to itself.
        let contexts = [0x4C44_0001, 0, 0, 0, 0, 0, 0, 0, 2, 0, 0, 1, 0, 1, 0, 0];
        let broken: [(&[u32], _); 3] =
            [(&modes, (1, 1)), (&escape_rows, (7, 0)), (&contexts, (9, 1))];
        for (words, (rule, item)) in broken {
            let mut room = vec![7; 16_384];
            let answer = decode(words, &mut room);
            assert_eq!((answer.number, answer.item, answer.place), (6, item, rule));
            assert_eq!((answer.modes, answer.states, answer.words), (0, 0, 0));
            assert!(room.iter().all(|&number| number == 0));
        }
    }

    /// The item stands where padding stood: no answer is longer for it, and nothing else has moved.
    #[test]
    fn an_item_takes_no_place_of_its_own() {
        macro_rules! laid_out {
            ($($answer:ident $size:literal),*) => {$(
                assert_eq!(size_of::<$answer>(), $size, stringify!($answer));
                let offsets =
                    [offset_of!($answer, number), offset_of!($answer, item), offset_of!($answer, place)];
                assert_eq!(offsets, [0, 4, 8], stringify!($answer));
            )*};
        }
        laid_out!(
            ClassAnswer 24, RunAnswer 40, ScanAnswer 40, DecodeAnswer 32, ListAnswer 24,
            TransitionsAnswer 32, SegmentsAnswer 24, MasksAnswer 32, RowsAnswer 32
        );
    }

    /// An accepted table's place is 0.
    #[test]
    fn an_accepted_table_has_its_counts() {
        let mut room = vec![7; 16_385];
        let answer = decode(&[0x4C44_0001, 1, u32::MAX, 0, 0, 0, 0, 0, 0, 0], &mut room);
        assert_eq!((answer.number, answer.item, answer.place), (0, 0, 0));
        assert_eq!((answer.modes, answer.states, answer.words), (1, 0, 10));
    }

    /// A table's words come back, and an output that is too short for them is all zeros.
    #[test]
    fn a_decoded_table_is_encoded() {
        let words = [0x4C44_0001, 1, u32::MAX, 0, 0, 0, 0, 0, 0, 0];
        let mut room = vec![7; 16_384];
        assert_eq!(decode(&words, &mut room).number, 0);
        let mut out = [7; 11];
        let answer = encode(&room, &mut out);
        assert_eq!((answer.number, answer.item, answer.place, answer.length), (0, 0, 0, 10));
        assert_eq!((&out[..10], out[10]), (&words[..], 0));
        let answer = encode(&room, &mut out[..9]);
        assert_eq!((answer.number, answer.item, answer.place, answer.length), (7, 0, 0, 0));
        assert_eq!(out[..9], [0; 9]);
    }

    /// A refused lookup or encoding has its number alone, and a buffer that it is lent is all zeros.
    #[test]
    fn a_refused_lookup_is_empty() {
        for room in [&[][..], &[7; 8], &[9; 40]] {
            let values = [
                has_compiled_modes(room),
                state_count(room),
                mode_start(room, 0),
                accept(room, 0),
                ascii_target(room, 0, 65),
                char_target(room, 0, 65),
                char_target(room, 0, 945),
                eof_target(room, 0),
                char_continuation(room, 0, 65),
                eof_continuation(room, 0),
                coverage(room, 0),
            ];
            assert!(values.iter().all(|answer| (answer.number, answer.value) == (9, 0)));
            let answer = ascii_run(room, 0);
            assert_eq!((answer.number, answer.item, answer.place, answer.length), (9, 0, 0, 0));
            assert_eq!([answer.first, answer.second, answer.third], [0; 3]);
            let answer = scan_ascii_run(room, 0, b"10 ply");
            assert_eq!((answer.number, answer.bytes, answer.stop), (9, 0, 0));
            let answer = accept_record(room, 0);
            assert_eq!((answer.number, answer.found), (9, 0));
            assert_eq!([answer.rule, answer.consumed_eof, answer.actions], [0; 3]);
            let answer = continuation_record(room, 0);
            assert_eq!((answer.number, answer.found), (9, 0));
            assert_eq!([answer.contexts, answer.configs], [0; 2]);
            let spans = [accept_actions, continuation_contexts, continuation_configs];
            let spans = spans.map(|span| span(room, 0));
            assert!(spans.iter().all(|span| (span.from, span.length) == (0, 0)));
            for list in [compiled_mode_flags, mode_state_counts, encode] {
                let mut out = [7; 3];
                let answer = list(room, &mut out);
                assert_eq!((answer.number, answer.item, answer.place, answer.length), (9, 0, 0, 0));
                assert_eq!(out, [0; 3]);
            }
        }
    }

    /// A refused list leaves no number behind, in an answer or in a buffer; a refused pool stays as it was.
    #[test]
    fn a_refused_list_is_empty() {
        let list = [5, 0, 0, 6, 0, 0];
        let answer = read_transitions(&list);
        assert_eq!((answer.number, answer.item, answer.place), (3, 0, 3));
        assert_eq!((answer.transitions, answer.intervals), (0, 0));
        let (mut numbers, mut masks, mut distinct) = ([7; 4096], [7; 8192], [7; 8192]);
        let answer = read_intervals(&list, &mut numbers);
        assert_eq!((answer.number, answer.item, answer.place), (3, 0, 3));
        assert_eq!((answer.transitions, answer.intervals), (0, 0));
        let answer = char_segments(&list, &mut numbers);
        assert_eq!((answer.number, answer.item, answer.place, answer.segments), (3, 0, 3, 0));
        let answer = segment_mask_matrix(&list, &mut numbers, &mut masks);
        assert_eq!((answer.number, answer.item, answer.place), (3, 0, 3));
        assert_eq!((answer.masks, answer.words), (0, 0));
        let answer = distinct_masks(&list, &mut numbers, &mut masks, &mut distinct);
        assert_eq!((answer.number, answer.item, answer.place), (3, 0, 3));
        assert_eq!((answer.masks, answer.words), (0, 0));
        assert!(numbers.iter().all(|&number| number == 0));
        assert!(masks.iter().chain(&distinct).all(|&word| word == 0));

        let (mut ascii, mut wide, mut escape) = ([7; 128], [7; 6144], [7; 6144]);
        let lent = RowBuffers {
            segments: &mut numbers,
            masks: &mut masks,
            distinct: &mut distinct,
            ascii: &mut ascii,
            wide: &mut wide,
            escape: &mut escape,
        };
        let answer = build_rows(&list[..3], &[], &[], lent);
        assert_eq!(
            (answer.number, answer.item, answer.place, answer.wide, answer.escape),
            (11, 0, 0, 0, 0)
        );
        assert!(ascii.iter().all(|&target| target == 0));
        assert!(wide.iter().chain(&escape).all(|&number| number == 0));

        let mut pool = [7; 129];
        let answer = intern_ascii(&mut pool, 1, &[8; 128]);
        assert_eq!((answer.number, answer.row), (7, 0));
        assert_eq!(pool, [7; 129]);
        let mut pool = [0, 7];
        let answer = intern_wide(&mut pool, 2, &[]);
        assert_eq!((answer.number, answer.row), (9, 0));
        assert_eq!(pool, [0, 7]);
    }

    /// The words behind a run's own are 0, and an accepted answer's place is 0.
    #[test]
    fn an_accepted_answer_has_only_its_own_words() {
        let answer = read_run(&[8706, 5, 6, 7], 0);
        assert_eq!((answer.number, answer.item, answer.place, answer.length), (0, 0, 0, 1));
        assert_eq!([answer.first, answer.second, answer.third], [8706, 0, 0]);
        let answer = classify(&[7; 128], 7);
        assert_eq!((answer.number, answer.item, answer.place, answer.length), (0, 0, 0, 1));
        assert_eq!([answer.first, answer.second, answer.third], [1, 0, 0]);
        let answer = scan(&[0], b"10 ply");
        assert_eq!((answer.number, answer.item, answer.place, answer.bytes), (0, 0, 0, 0));
        assert_eq!((answer.ran, answer.found_exit), (0, 0));
    }
}
