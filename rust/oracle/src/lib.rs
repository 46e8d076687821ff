//! The original lexer DFA table core, completed as document 01 says: what the proved library is
//! compared with. `build.rs` reads the published Rust (BSD-3-Clause) at build time and `edits.rs`
//! lists what is changed in it; nothing of it is kept in this repository.
//!
//! Where the published Rust is not at hand the crate is empty but for [`FOLDER`].

#[cfg(not(no_oracle))]
mod atn;
#[cfg(not(no_oracle))]
mod memchr;
#[cfg(not(no_oracle))]
mod prediction;

#[cfg(not(no_oracle))]
pub use atn::ascii_range::{AsciiRange, AsciiRangeClass, AsciiRanges, MAX_RANGES, scan_scalar};
#[cfg(not(no_oracle))]
pub use atn::lexer_dfa::reach::{
    Pools, Rows, accept, accepts, char_continuation, class, classify, continuations,
    eof_continuation, intervals, masks, merge, read_run, rows, run_words, scan, segments, split,
};
#[cfg(not(no_oracle))]
pub use atn::lexer_dfa::{AsciiRun, AsciiRunScan, CompiledLexerDfa};
#[cfg(not(no_oracle))]
pub use atn::{IntervalSet, LexerTransition};

/// The folder in which the original was looked for.
pub const FOLDER: &str = env!("ORACLE_FOLDER");
