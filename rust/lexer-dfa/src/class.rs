//! The class of a byte and of a run's ranges.

use crate::{Refusal, ffi};

/// What a byte is, decided by the ranges of its value.
#[derive(Clone, Copy, Debug, Eq, Hash, PartialEq)]
pub enum ByteClass {
    /// `0` to `9`
    Digit,
    /// `A` to `F` and `a` to `f`
    HexLetter,
    /// `G` to `Z` and `g` to `z`
    OtherLetter,
    /// 9, 10, 12, 13 and 32; not 11
    Whitespace,
    /// `_`
    Underscore,
    /// `'`
    Quote,
    /// `$`
    Dollar,
    /// every other byte, all of 128 and above among them
    Other,
}

/// The class of a byte.
///
/// ```
/// use lexer_dfa::{ByteClass, class_of_byte};
/// assert_eq!(class_of_byte(b'7'), ByteClass::Digit);
/// assert_eq!(class_of_byte(11), ByteClass::Other);
/// ```
pub fn class_of_byte(byte: u8) -> ByteClass {
    match ffi::class_of_byte(byte) {
        0 => ByteClass::Digit,
        1 => ByteClass::HexLetter,
        2 => ByteClass::OtherLetter,
        3 => ByteClass::Whitespace,
        4 => ByteClass::Underscore,
        5 => ByteClass::Quote,
        6 => ByteClass::Dollar,
        _ => ByteClass::Other,
    }
}

/// What the bytes of a run of ranges make up.
#[derive(Clone, Copy, Debug, Eq, Hash, PartialEq)]
pub enum AsciiRangeClass {
    /// whitespace only
    Whitespace,
    /// a digit, and only hex digits, `_` or `'`
    Number,
    /// no number: a letter, and only letters, digits, `_` or `$`
    Identifier,
    /// anything else
    Other,
}

/// The class of the ranges that the three words of a run hold. Any other words are refused with
/// FIELD at 0.
///
/// ```
/// use lexer_dfa::{AsciiRangeClass, class};
/// assert_eq!(class(&[261, 14640, 0]), Ok(AsciiRangeClass::Number));
/// assert_eq!(class(&[8706]).unwrap_err().name(), "FIELD");
/// ```
pub fn class(words: &[u32]) -> Result<AsciiRangeClass, Refusal> {
    let answer = ffi::class(words);
    Refusal::unless_accepted(answer.number, answer.item, answer.place)?;
    Ok(match answer.class {
        0 => AsciiRangeClass::Whitespace,
        1 => AsciiRangeClass::Number,
        2 => AsciiRangeClass::Identifier,
        _ => AsciiRangeClass::Other,
    })
}
