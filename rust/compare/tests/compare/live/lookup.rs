//! Lookups on the rooms of decoded tables, by the original.

use compare::original;
use compare::plain::refusal;
use compare::plain::table::{NONE, Table};
use compare::seeded::Seeded;
use compare::tables;
use lexer_dfa::{AcceptRecord, Refusal};
use oracle::CompiledLexerDfa;

type Ours = lexer_dfa::Table;

/// Every state of seeded tables of every size, on every symbol that could tell; and each record.
pub fn seeded() -> usize {
    const TABLES: usize = 20_000;
    let mut from = Seeded::new(22);
    let mut cases = 0;
    for _ in 0..TABLES {
        let table = match from.below(200) {
            0 => tables::full(&mut from, 8192),
            1..=10 => tables::middle(&mut from),
            _ => tables::small(&mut from),
        };
        cases += same(&mut from, &table);
    }
    cases
}

/// The ply book's, and tables of which one section takes all words.
pub fn samples() -> usize {
    let mut from = Seeded::new(23);
    let all = tables::crowded().into_iter().chain([compare::samples::ply_book()]);
    all.map(|table| same(&mut from, &table)).sum()
}

fn same(from: &mut Seeded, table: &Table) -> usize {
    let words = tables::words(table);
    let theirs = original::decode(&words).expect("the original accepts the table");
    let ours = Ours::decode(&words).expect("the library accepts the table");
    modes(&ours, table, &theirs);
    records(&ours, &theirs);
    let mut cases = 0;
    for state in 0..table.states.len() as u16 {
        cases += targets(&ours, table, &theirs, state) + scans(from, &ours, &theirs, state);
    }
    for state in [table.states.len() as u16, 65533, 65534, 65535] {
        no_state(&ours, state);
    }
    cases + 1
}

fn modes(ours: &Ours, table: &Table, theirs: &CompiledLexerDfa) {
    let count = table.modes.len() as i32;
    for mode in (-3..count + 3).chain([i32::MIN, i32::MAX]) {
        assert_eq!(ours.mode_start(mode), Ok(theirs.mode_start(mode)), "mode {mode}");
    }
    assert_eq!(ours.has_compiled_modes(), theirs.has_compiled_modes());
    assert_eq!(ours.states(), theirs.state_count());
    assert_eq!(ours.compiled_mode_flags(), theirs.compiled_mode_flags());

    // Where starts descend, the original underflows (docs/DIFFERENCES.md).
    let compiled = || (0..).zip(&table.modes).filter(|&(_, &start)| start != NONE);
    let descent = compiled().zip(compiled().skip(1)).find(|(before, mode)| mode.1 < before.1);
    let counts = match descent {
        Some((_, (place, _))) => refusal(10, place),
        None => Ok(theirs.mode_state_counts().into_iter().map(|count| count as u32).collect()),
    };
    assert_eq!(ours.mode_state_counts(), counts);
}

fn records(ours: &Ours, theirs: &CompiledLexerDfa) {
    let accepts = oracle::accepts(theirs);
    for (number, (rule, flag, actions)) in (0..).zip(&accepts) {
        let (actions, _) = actions.as_chunks();
        let record = AcceptRecord { rule: *rule as u32, consumed_eof: *flag, actions };
        assert_eq!(ours.accept_record(number), Ok(Some(record)));
    }
    for number in [accepts.len() as u32, NONE] {
        assert_eq!(ours.accept_record(number), Ok(None));
    }
    let continuations = oracle::continuations(theirs);
    for (number, (contexts, configs)) in (0..).zip(&continuations) {
        let record = ours.continuation_record(number).expect("a table").expect("a record");
        assert_eq!(record.contexts.as_flattened(), contexts);
        assert_eq!(record.configs, configs);
    }
    for number in [continuations.len() as u32, NONE] {
        assert_eq!(ours.continuation_record(number), Ok(None));
    }
}

/// All symbols 0 to 300, and those that tell.
fn symbols(table: &Table, state: u16) -> Vec<i32> {
    (0..=300).chain(tables::symbols::telling(table, state)).collect()
}

fn number(found: Option<usize>) -> Result<Option<u32>, Refusal> {
    Ok(found.map(|number| number as u32))
}

fn targets(ours: &Ours, table: &Table, theirs: &CompiledLexerDfa, state: u16) -> usize {
    assert_eq!(ours.accept(state), number(oracle::accept(theirs, state)));
    assert_eq!(ours.eof_target(state), Ok(theirs.eof_target(state)));
    assert_eq!(ours.eof_continuation(state), number(oracle::eof_continuation(theirs, state)));
    for symbol in 0..=127 {
        assert_eq!(ours.ascii_target(state, symbol), Ok(theirs.ascii_target(state, symbol)));
    }
    for symbol in 128..=255 {
        assert_eq!(ours.ascii_target(state, symbol), STATE.map(|()| 0));
    }
    let symbols = symbols(table, state);
    for &symbol in &symbols {
        assert_eq!(
            ours.char_target(state, symbol),
            Ok(theirs.char_target(state, symbol)),
            "char_target of {symbol}"
        );
        assert_eq!(
            ours.char_continuation(state, symbol),
            number(oracle::char_continuation(theirs, state, symbol)),
            "char_continuation of {symbol}"
        );
    }
    3 + 256 + 2 * symbols.len()
}

/// The run of a state, and scans by it over inputs of few different bytes and of many.
fn scans(from: &mut Seeded, ours: &Ours, theirs: &CompiledLexerDfa, state: u16) -> usize {
    const SCANS: usize = 8;
    let words = oracle::run_words(theirs.ascii_run(state));
    assert_eq!(ours.ascii_run(state).expect("a state").words(), words);
    for _ in 0..SCANS {
        let few: [u8; 2] = [(); 2].map(|()| from.below(128) as u8);
        let most = from.pick(&[2, 128, 256]);
        let length = from.below(70);
        let byte = |_| match from.below(8) {
            0 => from.below(most) as u8,
            other => few[other % 2],
        };
        let input: Vec<u8> = (0..length).map(byte).collect();
        let scan = theirs.scan_ascii_run(state, &input).map(|scan| (scan.bytes, scan.found_exit));
        let length = ours.scan_length(state, &input).expect("a state");
        let length = length.map(|scan| (scan.bytes, scan.found_exit));
        assert_eq!(length, scan, "{words:?} {input:?}");
        let front = ours.scan(state, &input).expect("a state");
        assert_eq!(front, scan.map(|(bytes, _)| &input[..bytes]), "{words:?} {input:?}");
        assert!(front.is_none_or(|front| front.as_ptr() == input.as_ptr()));
    }
    1 + SCANS
}

const STATE: Result<(), Refusal> = refusal(8, 0);

/// The original panics here (docs/DIFFERENCES.md).
fn no_state(ours: &Ours, state: u16) {
    assert_eq!(ours.accept(state), STATE.map(|()| None));
    assert_eq!(ours.eof_target(state), STATE.map(|()| 0));
    assert_eq!(ours.eof_continuation(state), STATE.map(|()| None));
    assert_eq!(ours.ascii_target(state, 65), STATE.map(|()| 0));
    assert_eq!(ours.char_target(state, 65), STATE.map(|()| 0));
    assert_eq!(ours.char_target(state, 0x3A9), STATE.map(|()| 0));
    assert_eq!(ours.char_continuation(state, 65), STATE.map(|()| None));
    assert_eq!(ours.ascii_run(state).map(drop), STATE);
    assert_eq!(ours.scan(state, b"10 ply"), STATE.map(|()| None));
    assert_eq!(ours.scan_length(state, b"10 ply"), STATE.map(|()| None));
}
