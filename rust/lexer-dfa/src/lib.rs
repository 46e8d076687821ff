//! The lexer DFA table core of a ply-book reader, proved in Rattle, as a Rust crate.
//!
//! Every call takes all words, bytes and lengths and ends with its answer or one numbered
//! [`Refusal`]; there is nothing to check first.
//!
//! ```
//! use lexer_dfa::AsciiRun;
//!
//! // State 7 loops on the digits and leaves on everything else.
//! let mut row = [0; 128];
//! row[48..58].fill(7);
//! let run = AsciiRun::classify(&row, 7)?;
//!
//! assert_eq!(run.scan(b"10 ply"), Some(&b"10"[..]));
//! # Ok::<(), lexer_dfa::Refusal>(())
//! ```

#![deny(missing_docs, unsafe_code)]

mod class;
#[allow(unsafe_code)]
mod ffi;
pub mod lookup;
pub mod pools;
mod refusal;
pub mod rows;
mod run;
mod table;
mod transition;

pub use class::{AsciiRangeClass, ByteClass, class, class_of_byte};
pub use lookup::{AcceptRecord, ContinuationRecord};
pub use refusal::Refusal;
pub use rows::{
    NO_CONTINUATION, RowBuilder, Rows, build_rows, char_segments, distinct_masks, read_intervals,
    read_transitions, segment_mask_matrix,
};
pub use run::{AsciiRun, AsciiRunScan, scan};
pub use table::{
    DEAD_STATE, Decoded, ESCAPE_STATE, MAX_WORDS, ROOM_NUMBERS, Table, decode_into, encode_into,
};
pub use transition::{MAX_INTERVALS, MAX_TRANSITIONS, Transition, list_bytes};
