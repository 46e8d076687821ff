//! Pools of rows: each row stands in its pool once, and is known by its number.
//!
//! A pool is a buffer in which rows stand one behind another; how many, the caller says with each
//! call. A row that is interned is found there, or appended. A pool may be of any length and hold any
//! numbers.
//!
//! | refused with, at 0 | where |
//! |---|---|
//! | NOT-TABLE | the stated rows do not fit the pool |
//! | FIELD | an ascii row is not 128 long; a wide row is not in threes, or has a target past 65535 |
//! | ROOM | the row is new, and the pool can't take it |
//!
//! They are judged in this order. A refused pool is left as it was; of any other nothing changes but
//! the numbers of an appended row.
//!
//! ```
//! use lexer_dfa::pools;
//!
//! let mut pool = [0; 256];
//! let mut rows = 0;
//! for (row, number) in [([7; 128], 0), ([9; 128], 1), ([7; 128], 0)] {
//!     let place = pools::intern_ascii(&mut pool, rows, &row)?;
//!     assert_eq!(place, number);
//!     rows = rows.max(place + 1);
//! }
//! // An equal row is found in a full pool too; a new one has no room.
//! assert_eq!(pools::intern_ascii(&mut pool, rows, &[9; 128]), Ok(1));
//! assert_eq!(pools::intern_ascii(&mut pool, rows, &[8; 128]).unwrap_err().name(), "ROOM");
//! # Ok::<(), lexer_dfa::Refusal>(())
//! ```

use crate::{Refusal, ffi};

/// The number of the first row of the pool that is equal to this one of 128 targets; where there is
/// none it is appended, and its number is how many rows there were.
pub fn intern_ascii(pool: &mut [u16], rows: usize, row: &[u16]) -> Result<usize, Refusal> {
    interned(ffi::intern_ascii(pool, rows, row))
}

/// The same for a row of ranges, low, high and target each. In the pool a row stands as its count, and
/// its ranges behind that.
///
/// ```
/// use lexer_dfa::pools::intern_wide;
///
/// let mut pool = [0; 12];
/// assert_eq!(intern_wide(&mut pool, 0, &[128, 300, 3]), Ok(0));
/// assert_eq!(intern_wide(&mut pool, 1, &[]), Ok(1));
/// assert_eq!(intern_wide(&mut pool, 2, &[128, 300, 3]), Ok(0));
/// assert_eq!(pool[..5], [1, 128, 300, 3, 0]);
/// ```
pub fn intern_wide(pool: &mut [u32], rows: usize, row: &[u32]) -> Result<usize, Refusal> {
    interned(ffi::intern_wide(pool, rows, row))
}

fn interned(answer: ffi::InternAnswer) -> Result<usize, Refusal> {
    Refusal::unless_accepted(answer.number, 0, 0)?;
    Ok(answer.row)
}
