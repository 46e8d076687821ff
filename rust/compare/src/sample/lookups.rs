//! The sample of the program `replay_lookups`: a table, and what the original answers about it.
//!
//! The table stands first, its number of words u16 and its words. Numbers are little-endian.
//!
//! | record | fields |
//! |---|---|
//! | 1 mode_start, 2 state_count, 3 accept, 4 ascii_target, 5 char_target, 6 eof_target, 7 char_continuation, 8 eof_continuation, 9 coverage | state u16, symbol u32 (of mode_start the mode), answer u32: NONE for no start, accept or continuation; what a lookup does not ask for is 0 |
//! | 10 scan_ascii_run | state u16, input length u16, input, outcome u8: 1 no run, 2 ran; bytes u16, exit found u8 |
//! | 11 compiled_mode_flags, 12 mode_state_counts, 13 encode | numbers written u16, check u32 of an output of 8,192 numbers |

use super::{check, put_words};
use crate::plain::coverage::points;
use crate::plain::table::{DEAD, ESCAPE, NONE, State, Table};
use crate::seeded::Seeded;
use crate::{original, tables};
use oracle::CompiledLexerDfa;

/// How often each lookup is asked that has more questions than the sample has space.
const EACH: usize = 1300;
const SCANS: usize = 400;

/// The whole sample. `replay_lookups` reads fewer than 65,536 bytes.
pub fn bytes() -> Vec<u8> {
    let mut from = Seeded::new(41);
    let (table, theirs) = telling_table(&mut from);
    let words = tables::words(&table);
    let mut out = Vec::new();
    out.extend((words.len() as u16).to_le_bytes());
    put_words(&words, &mut out);

    modes(&table, &theirs, &mut out);
    let states = table.states.len();
    for state in 0..states as u16 {
        of_state(&theirs, state, &mut out);
    }
    for _ in 0..EACH {
        let state = from.below(states) as u16;
        of_symbols(&mut from, &table, &theirs, state, &mut out);
    }
    // Half of the scans are of states that have a run.
    let run: Vec<u16> = (0..states as u16).filter(|&n| table.runs[usize::from(n)] != [0]).collect();
    for _ in 0..SCANS {
        let any = from.below(states) as u16;
        let with_run = from.pick(&run);
        let state = from.pick(&[any, with_run]);
        scan(&mut from, &table, &theirs, state, &mut out);
    }
    list(13, &theirs.serialize(), &mut out);
    assert!(out.len() < 65_536);
    out
}

/// The first seeded table in which every lookup has more than one answer to give.
fn telling_table(from: &mut Seeded) -> (Table, CompiledLexerDfa) {
    loop {
        let table = tables::middle(from);
        let words = tables::words(&table);
        if words.len() <= 2000 && modes_tell(&table) && states_tell(&table) && records_tell(&table)
        {
            let theirs = original::decode(&words).expect("the original accepts the table");
            return (table, theirs);
        }
    }
}

/// Some modes are compiled and one is not. Their starts ascend: the original underflows where they
/// descend (docs/DIFFERENCES.md).
fn modes_tell(table: &Table) -> bool {
    let compiled = || table.modes.iter().filter(|&&start| start != NONE);
    compiled().is_sorted_by(|before, start| before < start)
        && compiled().count() > 1
        && compiled().count() < table.modes.len()
}

/// Runs of every kind and none, both targets that are no state at the end of the input, a state that
/// accepts nothing, and in one state of three targets past ASCII.
fn states_tell(table: &Table) -> bool {
    let some = |holds: &dyn Fn(&State) -> bool| table.states.iter().any(holds);
    let wide = (0..table.states.len() as u16).filter(|&state| points(table, state) > 500).count();
    (0..=5).all(|kind| table.runs.iter().any(|run| run[0] & 255 == kind))
        && some(&|state| state.eof_target == ESCAPE)
        && some(&|state| state.eof_target == DEAD)
        && some(&|state| state.accept == NONE)
        && wide * 3 > table.states.len()
}

/// Actions, flags that encoding writes as 1, and continuations that are there and that are not.
fn records_tell(table: &Table) -> bool {
    table.accepts.iter().any(|accept| !accept.actions.is_empty())
        && table.accepts.iter().any(|accept| accept.consumed_eof > 1)
        && table.continuations.len() > 2
        && table.escape_rows.iter().any(|row| row.eof == NONE)
        && table.escape_rows.iter().filter(|row| row.ranges.len() > 1).count() > 2
}

fn number(kind: u8, state: u16, symbol: i32, answer: u32, out: &mut Vec<u8>) {
    out.push(kind);
    out.extend(state.to_le_bytes());
    out.extend(symbol.to_le_bytes());
    out.extend(answer.to_le_bytes());
}

fn or_none(found: Option<usize>) -> u32 {
    found.map_or(NONE, |number| number as u32)
}

/// The numbers are followed by zeros up to the end of the output.
fn list(kind: u8, numbers: &[u32], out: &mut Vec<u8>) {
    let mut output = numbers.to_vec();
    output.resize(8192, 0);
    out.push(kind);
    out.extend((numbers.len() as u16).to_le_bytes());
    out.extend(check(&output).to_le_bytes());
}

fn modes(table: &Table, theirs: &CompiledLexerDfa, out: &mut Vec<u8>) {
    let count = table.modes.len() as i32;
    for mode in (-3..count + 3).chain([65535, 65536, i32::MIN, i32::MAX]) {
        number(1, 0, mode, theirs.mode_start(mode).map_or(NONE, u32::from), out);
    }
    number(2, 0, 0, theirs.state_count() as u32, out);
    let flags: Vec<u32> = theirs.compiled_mode_flags().into_iter().map(u32::from).collect();
    list(11, &flags, out);
    let counts: Vec<u32> =
        theirs.mode_state_counts().into_iter().map(|count| count as u32).collect();
    list(12, &counts, out);
}

/// Coverage is counted point by point, over the original's targets.
fn of_state(theirs: &CompiledLexerDfa, state: u16, out: &mut Vec<u8>) {
    number(3, state, 0, or_none(oracle::accept(theirs, state)), out);
    number(6, state, 0, u32::from(theirs.eof_target(state)), out);
    number(8, state, 0, or_none(oracle::eof_continuation(theirs, state)), out);
    let goes_on = |&point: &i32| u32::from(theirs.char_target(state, point)) != DEAD;
    let points = (0..=0x10FFFF).filter(goes_on).count();
    number(9, state, 0, points as u32, out);
}

fn of_symbols(
    from: &mut Seeded,
    table: &Table,
    theirs: &CompiledLexerDfa,
    state: u16,
    out: &mut Vec<u8>,
) {
    let symbol = from.below(128) as u8;
    number(4, state, i32::from(symbol), u32::from(theirs.ascii_target(state, symbol)), out);
    let telling = tables::symbols::telling(table, state);
    let mut any = || {
        let few = from.below(300) as i32;
        let tells = from.pick(&telling);
        from.pick(&[few, tells, tells, tells])
    };
    let symbol = any();
    number(5, state, symbol, u32::from(theirs.char_target(state, symbol)), out);
    let symbol = any();
    number(7, state, symbol, or_none(oracle::char_continuation(theirs, state, symbol)), out);
}

/// Up to 40 bytes of which most go on with the run of the state.
fn scan(
    from: &mut Seeded,
    table: &Table,
    theirs: &CompiledLexerDfa,
    state: u16,
    out: &mut Vec<u8>,
) {
    let row = &table.ascii_rows[table.states[usize::from(state)].ascii_row as usize];
    let (mut loops, mut exits): (Vec<u8>, Vec<u8>) =
        (0..128).partition(|&byte| row[usize::from(byte)] == state);
    loops.push(from.below(128) as u8);
    exits.push(from.word() as u8);
    let length = from.below(41);
    let byte = |_| match from.below(24) {
        0 => from.pick(&exits),
        _ => from.pick(&loops),
    };
    let input: Vec<u8> = (0..length).map(byte).collect();
    out.push(10);
    out.extend(state.to_le_bytes());
    out.extend((length as u16).to_le_bytes());
    out.extend(&input);
    let (outcome, bytes, found_exit) = match theirs.scan_ascii_run(state, &input) {
        None => (1, 0, false),
        Some(scan) => (2, scan.bytes as u16, scan.found_exit),
    };
    out.push(outcome);
    out.extend(bytes.to_le_bytes());
    out.push(u8::from(found_exit));
}
