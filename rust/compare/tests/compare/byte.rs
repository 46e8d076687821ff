//! The class of a byte by what Rust's own methods say of it, which the original's `class` asks.

use lexer_dfa::{ByteClass, class_of_byte};

pub fn every_byte() -> usize {
    for byte in 0..=255_u8 {
        let expected = if byte.is_ascii_digit() {
            ByteClass::Digit
        } else if byte.is_ascii_hexdigit() {
            ByteClass::HexLetter
        } else if byte.is_ascii_alphabetic() {
            ByteClass::OtherLetter
        } else if byte.is_ascii_whitespace() {
            ByteClass::Whitespace
        } else {
            match byte {
                b'_' => ByteClass::Underscore,
                b'\'' => ByteClass::Quote,
                b'$' => ByteClass::Dollar,
                _ => ByteClass::Other,
            }
        };
        assert_eq!(class_of_byte(byte), expected, "byte {byte}");
    }
    256
}
