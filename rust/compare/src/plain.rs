//! Document 01, and what document 02 adds to it, read once more and as plainly as it goes: apart from
//! the proved code, and apart from the original, which has no numbers, places and items of refusals.
//! The library is held to these.

pub mod coverage;
mod decode;
mod encode;
pub mod lookup;
pub mod pools;
mod read;
pub mod rows;
mod rules;
mod run;
pub mod show;
pub mod table;
pub mod transitions;

pub use decode::{decode, room};
pub use encode::encode;
pub use run::{classification, one_run, read_run, row, three_words};

use lexer_dfa::Refusal;

/// A refusal by number and place: the item is "0 for rules 3 and 7 and for all other refusals".
pub const fn refusal<T>(number: u32, place: usize) -> Result<T, Refusal> {
    Err(Refusal { number, place, item: 0 })
}

fn short<T>(words: &[u32]) -> Result<T, Refusal> {
    refusal(1, words.len())
}

fn field<T>(place: usize) -> Result<T, Refusal> {
    refusal(3, place)
}
