//! A lexer for ply books, its table made by hand:
//!
//!     # toe, left blade
//!     ply 10 +45° T700 "Köper 2/2"
//!     core 1..3 0° balsa 9.5
//!
//! Names are of letters of many scripts. A quoted text has a mode of its own. What a table cannot
//! hold is left to the interpreter, by continuations: nested comments, `\u` in a quoted text, and a
//! quoted text that the book ends in; and the whole mode in which drawings are read.

use crate::plain::table::{
    Accept, Config, Continuation, DEAD, ESCAPE, EscapeRow, NONE, Range, State, Table,
};
use crate::tables::build::classify;

// The states of the first mode.
const START: u32 = 0;
const DIGITS: u32 = 1;
const POINT: u32 = 2;
const FRACTION: u32 = 3;
const NAME: u32 = 4;
const P: u32 = 5;
const PL: u32 = 6;
const PLY: u32 = 7;
const C: u32 = 8;
const CO: u32 = 9;
const COR: u32 = 10;
const CORE: u32 = 11;
const SPACE: u32 = 12;
const REMARK: u32 = 13;
const SIGN: u32 = 14;
const DEGREE: u32 = 15;
const MARK: u32 = 16;
const DOT: u32 = 17;
const TO: u32 = 18;
const SLASH: u32 = 19;
const OPEN: u32 = 20;
const END: u32 = 21;
// Those of the mode of quoted texts.
const QUOTED: u32 = 22;
const TEXT: u32 = 23;
const BACKSLASH: u32 = 24;
const ESCAPED: u32 = 25;
const CLOSE: u32 = 26;

/// Letters past ASCII: Latin, Greek, Cyrillic, Armenian, Hebrew, Arabic, Devanagari, Thai,
/// Georgian, kana, Han, Hangul, and two scripts past 0xFFFF.
const LETTERS: [(u32, u32); 33] = [
    (0xAA, 0xAA),
    (0xB5, 0xB5),
    (0xBA, 0xBA),
    (0xC0, 0xD6),
    (0xD8, 0xF6),
    (0xF8, 0x2C1),
    (0x370, 0x373),
    (0x376, 0x377),
    (0x37B, 0x37D),
    (0x37F, 0x37F),
    (0x386, 0x386),
    (0x388, 0x38A),
    (0x38C, 0x38C),
    (0x38E, 0x3A1),
    (0x3A3, 0x3F5),
    (0x3F7, 0x481),
    (0x48A, 0x52F),
    (0x531, 0x556),
    (0x561, 0x587),
    (0x5D0, 0x5EA),
    (0x620, 0x64A),
    (0x904, 0x939),
    (0xE01, 0xE30),
    (0x10A0, 0x10C5),
    (0x10D0, 0x10FA),
    (0x1E00, 0x1F15),
    (0x3041, 0x3096),
    (0x30A1, 0x30FA),
    (0x3400, 0x4DBF),
    (0x4E00, 0x9FFF),
    (0xAC00, 0xD7A3),
    (0x10400, 0x1049D),
    (0x20000, 0x2A6DF),
];

const ALL: [(u32, u32); 1] = [(0x80, 0x10FFFF)];

pub fn ply_book() -> Table {
    let mut book = Book { table: Table::default() };
    let letters = || to(NAME, &LETTERS);
    let all = |target| to(target, &ALL);
    let none = Vec::new;

    let mut first = letters();
    first.extend(to(DEGREE, &[(0xB0, 0xB0)]));
    first.extend(to(SIGN, &[(0xB1, 0xB1)]));
    first.sort_by_key(|range| range.low);

    book.state(START, in_the_book, first, None);
    book.state(DIGITS, number(DIGITS, POINT), none(), accept(0));
    book.state(POINT, number(FRACTION, DEAD), none(), None);
    book.state(FRACTION, number(FRACTION, DEAD), none(), accept(0));
    book.state(NAME, name, letters(), accept(1));
    book.state(P, name_or(b'l', PL), letters(), accept(1));
    book.state(PL, name_or(b'y', PLY), letters(), accept(1));
    book.state(PLY, name, letters(), accept(2));
    book.state(C, name_or(b'o', CO), letters(), accept(1));
    book.state(CO, name_or(b'r', COR), letters(), accept(1));
    book.state(COR, name_or(b'e', CORE), letters(), accept(1));
    book.state(CORE, name, letters(), accept(3));
    book.state(SPACE, only(is_space, SPACE), none(), accept_with(8, &[0]));
    book.state(REMARK, only(|byte| !is_line_end(byte), REMARK), all(REMARK), accept_with(9, &[0]));
    book.state(SIGN, dead, none(), accept(5));
    book.state(DEGREE, dead, none(), accept(6));
    book.state(MARK, dead, none(), accept(7));
    book.state(DOT, only(|byte| byte == b'.', TO), none(), None);
    book.state(TO, dead, none(), accept(4));
    book.state(SLASH, only(|byte| byte == b'*', ESCAPE), none(), accept(7));
    book.state(OPEN, dead, none(), accept_with(10, &[1, 2]));
    book.state(END, dead, none(), Some(Accept { rule: 15, consumed_eof: 1, actions: Vec::new() }));
    book.state(QUOTED, in_a_quoted_text, all(TEXT), None);
    book.state(TEXT, text, all(TEXT), accept(12));
    book.state(BACKSLASH, after_a_backslash, all(ESCAPED), None);
    book.state(ESCAPED, dead, none(), accept(13));
    book.state(CLOSE, dead, none(), accept_with(14, &[3]));

    let Table { modes, states, escape_rows, continuations, .. } = &mut book.table;
    // The third mode, that of drawings, is not compiled.
    *modes = vec![START, QUOTED, NONE];
    states[START as usize].eof_target = END;
    states[QUOTED as usize].eof_target = ESCAPE;
    *continuations = interpreted();
    let point = |byte: u8, to| vec![Range { low: u32::from(byte), high: u32::from(byte), to }];
    escape_rows[SLASH as usize].ranges = point(b'*', 0);
    escape_rows[BACKSLASH as usize].ranges = point(b'u', 1);
    escape_rows[QUOTED as usize].eof = 2;
    classify(&mut book.table);
    book.table
}

/// A nested comment, which returns to itself; a code point in hex; the end in a quoted text.
fn interpreted() -> Vec<Continuation> {
    let config = |state, rule, flags, context, actions: &[[u32; 3]]| Config {
        state,
        alternative: rule,
        flags,
        context,
        actions: actions.to_vec(),
    };
    vec![
        Continuation {
            contexts: vec![[0, 0, 71], [0, 1, 74], [1, 1, 2]],
            configs: vec![config(70, 11, [0, 1], 1, &[]), config(73, 11, [0, 1], 3, &[[0, 11, 2]])],
        },
        Continuation { contexts: Vec::new(), configs: vec![config(81, 13, [0, 0], 0, &[])] },
        Continuation { contexts: Vec::new(), configs: vec![config(90, NONE, [1, 0], 0, &[])] },
    ]
}

struct Book {
    table: Table,
}

impl Book {
    /// The next state. Equal rows are kept once; the run, what ends the input and what is escaped
    /// come later.
    fn state(
        &mut self,
        number: u32,
        lead: impl Fn(u8) -> u32,
        wide: Vec<Range>,
        accept: Option<Accept>,
    ) {
        let Table { states, ascii_rows, wide_rows, accepts, escape_rows, .. } = &mut self.table;
        assert_eq!(states.len(), number as usize);
        let accepted = accept.as_ref().map_or(NONE, |_| accepts.len() as u32);
        accepts.extend(accept);
        states.push(State {
            ascii_row: intern(ascii_rows, (0..128).map(|byte| lead(byte) as u16).collect()),
            wide_row: intern(wide_rows, wide),
            eof_target: DEAD,
            accept: accepted,
        });
        escape_rows.push(EscapeRow { eof: NONE, ranges: Vec::new() });
    }
}

/// The number of the first equal row, which is added where there is none.
fn intern<T: PartialEq>(rows: &mut Vec<T>, row: T) -> u32 {
    let place = rows.iter().position(|known| *known == row).unwrap_or(rows.len());
    if place == rows.len() {
        rows.push(row);
    }
    place as u32
}

fn to(target: u32, bounds: &[(u32, u32)]) -> Vec<Range> {
    bounds.iter().map(|&(low, high)| Range { low, high, to: target }).collect()
}

fn accept(rule: u32) -> Option<Accept> {
    accept_with(rule, &[])
}

/// An accept with actions of the lexer, each done at the end of the token.
fn accept_with(rule: u32, actions: &[u32]) -> Option<Accept> {
    let actions = actions.iter().map(|&action| [action, rule, 0]).collect();
    Some(Accept { rule, consumed_eof: 0, actions })
}

fn is_space(byte: u8) -> bool {
    matches!(byte, b' ' | b'\t' | b'\n' | b'\r' | 12)
}

fn is_line_end(byte: u8) -> bool {
    matches!(byte, b'\n' | b'\r')
}

fn in_the_book(byte: u8) -> u32 {
    match byte {
        b'p' => P,
        b'c' => C,
        b'0'..=b'9' => DIGITS,
        b'A'..=b'Z' | b'a'..=b'z' | b'_' => NAME,
        b'+' | b'-' => SIGN,
        b'.' => DOT,
        b'/' => SLASH,
        b'"' => OPEN,
        b'#' => REMARK,
        b'(' | b')' | b'*' | b',' | b':' | b';' | b'=' | b'[' | b']' | b'{' | b'}' => MARK,
        _ if is_space(byte) => SPACE,
        _ => DEAD,
    }
}

fn in_a_quoted_text(byte: u8) -> u32 {
    match byte {
        b'"' => CLOSE,
        b'\\' => BACKSLASH,
        b'\n' => DEAD,
        _ => TEXT,
    }
}

/// Loops on all but three exits.
fn text(byte: u8) -> u32 {
    if matches!(byte, b'"' | b'\\' | b'\n') { DEAD } else { TEXT }
}

fn after_a_backslash(byte: u8) -> u32 {
    match byte {
        b'u' => ESCAPE,
        _ if is_line_end(byte) => DEAD,
        _ => ESCAPED,
    }
}

fn name(byte: u8) -> u32 {
    if byte.is_ascii_alphanumeric() || byte == b'_' { NAME } else { DEAD }
}

/// A letter on the way to a word that the lexer knows; any other goes on with a name.
fn name_or(letter: u8, next: u32) -> impl Fn(u8) -> u32 {
    move |byte| if byte == letter { next } else { name(byte) }
}

fn number(digits: u32, point: u32) -> impl Fn(u8) -> u32 {
    move |byte| match byte {
        b'0'..=b'9' => digits,
        b'.' => point,
        _ => DEAD,
    }
}

fn only(bytes: impl Fn(u8) -> bool, target: u32) -> impl Fn(u8) -> u32 {
    move |byte| if bytes(byte) { target } else { DEAD }
}

fn dead(_: u8) -> u32 {
    DEAD
}
