//! The nine index rules, and "the first mode, state, row or continuation that breaks that rule, in
//! count order" (document 02).

use super::classification;
use super::table::{Config, Continuation, DEAD, ESCAPE, EscapeRow, NONE, Range, State, Table};

/// A rule that is broken, and the number of the first item that breaks it.
#[derive(Clone, Copy, Debug, Eq, PartialEq)]
pub struct Broken {
    pub rule: usize,
    pub item: usize,
}

/// The first rule that the table breaks.
pub fn first_broken(table: &Table) -> Option<Broken> {
    // Each looks for its first bad item, in a table that obeys the rules before it.
    const RULES: [fn(&Table) -> Option<usize>; 9] = [
        mode_that_starts_at_no_state,
        state_that_lacks_a_part,
        other_than_as_many_runs_as_states,
        state_whose_run_is_no_classification,
        ascii_row_of_a_bad_target,
        bad_wide_row,
        other_than_as_many_escape_rows_as_states,
        bad_escape_row,
        continuation_that_does_not_refer_below,
    ];
    let broken = |(rule, bad): (usize, &fn(&Table) -> Option<usize>)| {
        bad(table).map(|item| Broken { rule, item })
    };
    (1..).zip(&RULES).find_map(broken)
}

/// The number of the first that is not good, counted from 0.
fn first_bad<T>(items: &[T], good: impl Fn(&T) -> bool) -> Option<usize> {
    items.iter().position(|item| !good(item))
}

/// "0 for rules 3 and 7": they ask nothing of a single item.
fn unless(holds: bool) -> Option<usize> {
    if holds { None } else { Some(0) }
}

/// Whether a list has this index.
fn has<T>(list: &[T], index: u32) -> bool {
    (index as usize) < list.len()
}

/// Good: a state, 65534 or 65535.
fn good(table: &Table, target: u32) -> bool {
    has(&table.states, target) || target == ESCAPE || target == DEAD
}

/// Searchable: low at most high, each high below the next low.
fn searchable(row: &[Range]) -> bool {
    row.iter().all(|range| range.low <= range.high)
        && row.windows(2).all(|next| next[0].high < next[1].low)
}

fn mode_that_starts_at_no_state(table: &Table) -> Option<usize> {
    first_bad(&table.modes, |&start| start == NONE || has(&table.states, start))
}

fn state_that_lacks_a_part(table: &Table) -> Option<usize> {
    let has_its_parts = |state: &State| {
        has(&table.ascii_rows, state.ascii_row)
            && has(&table.wide_rows, state.wide_row)
            && good(table, state.eof_target)
            && (state.accept == NONE || has(&table.accepts, state.accept))
    };
    first_bad(&table.states, has_its_parts)
}

fn other_than_as_many_runs_as_states(table: &Table) -> Option<usize> {
    unless(table.runs.len() == table.states.len())
}

fn state_whose_run_is_no_classification(table: &Table) -> Option<usize> {
    (0..table.states.len()).find(|&state| {
        let row = &table.ascii_rows[table.states[state].ascii_row as usize];
        table.runs[state] != classification(row, state as u16)
    })
}

fn ascii_row_of_a_bad_target(table: &Table) -> Option<usize> {
    let good_row = |row: &Vec<u16>| row.iter().all(|&target| good(table, u32::from(target)));
    first_bad(&table.ascii_rows, good_row)
}

fn bad_wide_row(table: &Table) -> Option<usize> {
    let good_row =
        |row: &Vec<Range>| searchable(row) && row.iter().all(|range| good(table, range.to));
    first_bad(&table.wide_rows, good_row)
}

fn other_than_as_many_escape_rows_as_states(table: &Table) -> Option<usize> {
    unless(table.escape_rows.len() == table.states.len())
}

fn bad_escape_row(table: &Table) -> Option<usize> {
    let good_row = |row: &EscapeRow| {
        searchable(&row.ranges)
            && (row.eof == NONE || has(&table.continuations, row.eof))
            && row.ranges.iter().all(|range| has(&table.continuations, range.to))
    };
    first_bad(&table.escape_rows, good_row)
}

fn continuation_that_does_not_refer_below(table: &Table) -> Option<usize> {
    let refers_below = |continuation: &Continuation| {
        let contexts = &continuation.contexts;
        let there = |config: &Config| config.context as usize <= contexts.len();
        contexts.iter().zip(1..).all(|(&[kind, first, second], number)| match kind {
            // The second word of kind 0 is free.
            0 => first < number,
            _ => first < number && second < number,
        }) && continuation.configs.iter().all(there)
    };
    first_bad(&table.continuations, refers_below)
}
