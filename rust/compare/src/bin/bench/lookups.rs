//! Lookups in tables.

use crate::timing::compare;
use compare::plain::table::{Continuation, DEAD, ESCAPE, Range, Table};
use compare::samples;
use compare::seeded::Seeded;
use compare::tables;
use oracle::CompiledLexerDfa;
use std::hint::black_box;

// Out of line on both sides: ours is behind the C face anyway.
#[inline(never)]
fn rust_ascii_target(table: &CompiledLexerDfa, state: u16, symbol: u8) -> u16 {
    table.ascii_target(state, symbol)
}

#[inline(never)]
fn rust_char_target(table: &CompiledLexerDfa, state: u16, symbol: i32) -> u16 {
    table.char_target(state, symbol)
}

/// Whether there is one: the original hands out a reference, and has no number.
#[inline(never)]
fn rust_char_continuation(table: &CompiledLexerDfa, state: u16, symbol: i32) -> bool {
    table.char_continuation(state, symbol).is_some()
}

#[inline(never)]
fn rust_scan(table: &CompiledLexerDfa, state: u16, input: &[u8]) -> Option<oracle::AsciiRunScan> {
    table.scan_ascii_run(state, input)
}

/// The same table on both sides.
struct Both {
    rust: CompiledLexerDfa,
    ours: lexer_dfa::Table,
    states: usize,
}

const CALLS: usize = 2048;

pub fn lookups() {
    let book = samples::ply_book();
    let both = both(&book);
    let ascii = both.questions(|from| from.below(128) as i32);
    both.ascii_targets("ply book", &ascii);
    both.char_targets("ply book, ASCII", &ascii);
    both.char_continuations("ply book, ASCII", &ascii);
    both.scans("ply book");
    for ranges in [2, 8, 32, 400] {
        wide(ranges);
    }
}

/// Every state has wide and escape rows of that many ranges, each of 16 points behind 16 that are
/// in none.
fn wide(count: u32) {
    let row = |to: u32| -> Vec<Range> {
        (0..count).map(|i| 256 + 32 * i).map(|low| Range { low, high: low + 15, to }).collect()
    };
    let mut table = samples::one_state();
    table.wide_rows = vec![row(ESCAPE)];
    table.escape_rows[0].ranges = row(0);
    table.continuations = vec![Continuation { contexts: Vec::new(), configs: Vec::new() }];
    table.states[0].eof_target = DEAD;
    let both = both(&table);
    let within = |from: &mut Seeded| 256 + 32 * from.below(count as usize) + from.below(16);
    let hits = both.questions(|from| within(from) as i32);
    let misses = both.questions(|from| within(from) as i32 + 16);
    for (name, questions) in [("hit", hits), ("miss", misses)] {
        let name = format!("{count} ranges, wide {name}");
        both.char_targets(&name, &questions);
        both.char_continuations(&name, &questions);
    }
}

fn both(table: &Table) -> Both {
    let words = tables::words(table);
    Both {
        rust: CompiledLexerDfa::from_serialized(&words).expect("the original accepts the table"),
        ours: lexer_dfa::Table::decode(&words).expect("the library accepts the table"),
        states: table.states.len(),
    }
}

impl Both {
    /// Seeded states and symbols.
    fn questions(&self, symbol: impl Fn(&mut Seeded) -> i32) -> Vec<(u16, i32)> {
        let mut from = Seeded::new(24);
        (0..CALLS).map(|_| (from.below(self.states) as u16, symbol(&mut from))).collect()
    }

    fn ascii_targets(&self, name: &str, questions: &[(u16, i32)]) {
        let rust = |call: usize| {
            let (state, symbol) = questions[call];
            rust_ascii_target(black_box(&self.rust), state, symbol as u8)
        };
        let ours = |call: usize| {
            let (state, symbol) = questions[call];
            black_box(&self.ours).ascii_target(state, symbol as u8).expect("a state")
        };
        (0..CALLS).for_each(|call| assert_eq!(ours(call), rust(call), "{name}"));
        compare(&format!("ascii_target {name}"), CALLS, rust, ours);
    }

    fn char_targets(&self, name: &str, questions: &[(u16, i32)]) {
        let rust = |call: usize| {
            let (state, symbol) = questions[call];
            rust_char_target(black_box(&self.rust), state, symbol)
        };
        let ours = |call: usize| {
            let (state, symbol) = questions[call];
            black_box(&self.ours).char_target(state, symbol).expect("a state")
        };
        (0..CALLS).for_each(|call| assert_eq!(ours(call), rust(call), "{name}"));
        compare(&format!("char_target {name}"), CALLS, rust, ours);
    }

    fn char_continuations(&self, name: &str, questions: &[(u16, i32)]) {
        let rust = |call: usize| {
            let (state, symbol) = questions[call];
            rust_char_continuation(black_box(&self.rust), state, symbol)
        };
        let ours = |call: usize| {
            let (state, symbol) = questions[call];
            black_box(&self.ours).char_continuation(state, symbol).expect("a state").is_some()
        };
        (0..CALLS).for_each(|call| assert_eq!(ours(call), rust(call), "{name}"));
        compare(&format!("char_continuation {name}"), CALLS, rust, ours);
    }

    /// Scans by every state over a line of a ply book, from seeded places on.
    fn scans(&self, name: &str) {
        let line = b"ply 10 +45 T700 core 1..3 balsa 9.5 # toe, left blade, to the second rib ";
        let questions = self.questions(|from| from.below(line.len()) as i32);
        let input = |call: usize| &line[questions[call].1 as usize..];
        let rust = |call: usize| {
            rust_scan(black_box(&self.rust), questions[call].0, black_box(input(call)))
        };
        let ours = |call: usize| {
            let scan = black_box(&self.ours).scan_length(questions[call].0, black_box(input(call)));
            scan.expect("a state")
        };
        for call in 0..CALLS {
            let ours = ours(call).map(|scan| (scan.bytes, scan.found_exit));
            assert_eq!(ours, rust(call).map(|scan| (scan.bytes, scan.found_exit)), "{name}");
        }
        compare(&format!("scan_ascii_run {name}"), CALLS, rust, ours);
    }
}
