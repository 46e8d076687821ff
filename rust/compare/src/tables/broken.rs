//! Ways to break one index rule, and no other, of a table that has a state.

use super::build;
use crate::plain::classification;
use crate::plain::table::{Config, Continuation, DEAD, EscapeRow, NONE, Range, Table};
use crate::seeded::Seeded;

/// A way to break a rule. Ways are gone from the highest rule to the lowest: none mends what a higher
/// one broke, and so the lowest rule is the first that is broken.
#[derive(Clone, Copy)]
pub struct Way {
    pub rule: usize,
    items: fn(&Table) -> usize,
    breaks: fn(&mut Seeded, &mut Table, usize),
}

impl Way {
    /// How many items of the table it can be gone at: 1 where the rule asks nothing of single ones.
    pub fn items(&self, table: &Table) -> usize {
        (self.items)(table)
    }

    /// Breaks the rule at each of these items, which ascend.
    pub fn go_at(&self, items: &[usize], from: &mut Seeded, table: &mut Table) {
        for &item in items {
            (self.breaks)(from, table, item);
        }
    }

    /// Breaks the rule at one item, and answers which.
    pub fn go(&self, from: &mut Seeded, table: &mut Table) -> usize {
        let item = from.below(self.items(table));
        self.go_at(&[item], from, table);
        item
    }
}

pub const WAYS: [Way; 33] = [
    way(1, new_modes, |_, table, at| new_mode(table, at, count(&table.states))),
    way(1, new_modes, |_, table, at| new_mode(table, at, 65533)),
    way(1, new_modes, |_, table, at| new_mode(table, at, 65534)),
    way(1, new_modes, |_, table, at| new_mode(table, at, 65535)),
    way(2, states, |_, table, at| table.states[at].ascii_row = count(&table.ascii_rows)),
    way(2, states, |_, table, at| table.states[at].ascii_row = NONE),
    way(2, states, |_, table, at| table.states[at].wide_row = count(&table.wide_rows)),
    way(2, states, |_, table, at| table.states[at].eof_target = count(&table.states)),
    way(2, states, |_, table, at| table.states[at].eof_target = 65533),
    way(2, states, |_, table, at| table.states[at].accept = count(&table.accepts)),
    way(2, states, |_, table, at| table.states[at].accept = NONE - 1),
    way(3, whole, |_, table, _| table.runs.push(vec![0])),
    way(3, whole, |_, table, _| drop(table.runs.pop())),
    way(4, states, another_run),
    way(5, ascii_rows, ascii_target),
    way(5, new_ascii_rows, ascii_target_of_no_state),
    way(6, wide_rows, |_, table, at| table.wide_rows[at] = row(&[(5, 4)], DEAD)),
    way(6, wide_rows, |_, table, at| table.wide_rows[at] = row(&[(0, 5), (5, 9)], DEAD)),
    way(6, wide_rows, |_, table, at| table.wide_rows[at] = row(&[(200, 300), (100, 150)], DEAD)),
    way(6, new_wide_rows, |_, table, at| {
        table.wide_rows.insert(at, row(&[(0, NONE), (NONE, NONE)], DEAD));
    }),
    way(6, new_wide_rows, |_, table, at| {
        table.wide_rows.insert(at, row(&[(128, 200)], count(&table.states)));
    }),
    way(7, whole, |_, table, _| {
        table.escape_rows.push(EscapeRow { eof: NONE, ranges: Vec::new() });
    }),
    way(7, whole, |_, table, _| drop(table.escape_rows.pop())),
    way(8, escape_rows, |_, table, at| table.escape_rows[at].eof = count(&table.continuations)),
    way(8, escape_rows, |_, table, at| table.escape_rows[at].eof = NONE - 1),
    way(8, escape_rows, |_, table, at| escape_ranges(table, at, &[(128, 200)], 1)),
    way(8, escape_rows, |_, table, at| escape_ranges(table, at, &[(128, 200)], NONE)),
    way(8, escape_rows, |_, table, at| escape_ranges(table, at, &[(5, 4)], 0)),
    way(8, escape_rows, |_, table, at| escape_ranges(table, at, &[(0, 5), (5, 9)], 0)),
    way(9, new_continuations, |_, table, at| contexts(table, at, &[[0, 1, 0]], 0)),
    way(9, new_continuations, |_, table, at| contexts(table, at, &[[0, 0, NONE], [1, 2, 1]], 0)),
    way(9, new_continuations, |_, table, at| contexts(table, at, &[[0, 0, NONE], [1, 1, 2]], 0)),
    way(9, new_continuations, |_, table, at| contexts(table, at, &[[0, 0, NONE]], 2)),
];

const fn way(
    rule: usize,
    items: fn(&Table) -> usize,
    breaks: fn(&mut Seeded, &mut Table, usize),
) -> Way {
    Way { rule, items, breaks }
}

/// Of a rule that asks nothing of single items.
fn whole(_: &Table) -> usize {
    1
}

fn states(table: &Table) -> usize {
    table.states.len()
}

fn ascii_rows(table: &Table) -> usize {
    table.ascii_rows.len()
}

fn wide_rows(table: &Table) -> usize {
    table.wide_rows.len()
}

fn escape_rows(table: &Table) -> usize {
    table.escape_rows.len()
}

// A new item can stand before each, and behind the last.

fn new_modes(table: &Table) -> usize {
    table.modes.len() + 1
}

fn new_ascii_rows(table: &Table) -> usize {
    table.ascii_rows.len() + 1
}

fn new_wide_rows(table: &Table) -> usize {
    table.wide_rows.len() + 1
}

fn new_continuations(table: &Table) -> usize {
    table.continuations.len() + 1
}

fn count<T>(list: &[T]) -> u32 {
    list.len() as u32
}

fn row(bounds: &[(u32, u32)], to: u32) -> Vec<Range> {
    bounds.iter().map(|&(low, high)| Range { low, high, to }).collect()
}

fn new_mode(table: &mut Table, at: usize, start: u32) {
    table.modes.insert(at, start);
}

/// A state's run becomes another that reads well: of its exits, in descending order too.
fn another_run(from: &mut Seeded, table: &mut Table, state: usize) {
    let others: [&[u32]; 6] =
        [&[0], &[1], &[2], &[3 | 92 << 8 | 34 << 16], &[4], &[5 | 1 << 8, 14640, 0]];
    let right =
        classification(&table.ascii_rows[table.states[state].ascii_row as usize], state as u16);
    let wrong: Vec<&[u32]> = others.into_iter().filter(|&other| other != right).collect();
    table.runs[state] = from.pick(&wrong).to_vec();
}

/// The runs follow the row, so that rule 4 holds.
fn ascii_target(from: &mut Seeded, table: &mut Table, at: usize) {
    let bad = from.pick(&[count(&table.states), 65533]);
    let symbol = from.below(128);
    table.ascii_rows[at][symbol] = bad as u16;
    build::classify(table);
}

/// States that had a row behind the new one have the row before it now, and the runs follow.
fn ascii_target_of_no_state(_: &mut Seeded, table: &mut Table, at: usize) {
    let mut row = vec![DEAD as u16; 128];
    row[127] = table.states.len() as u16;
    table.ascii_rows.insert(at, row);
    build::classify(table);
}

/// An escape row gets these ranges, to the continuation that is that far behind the last.
fn escape_ranges(table: &mut Table, at: usize, bounds: &[(u32, u32)], behind: u32) {
    if table.continuations.is_empty() {
        table.continuations.push(Continuation { contexts: Vec::new(), configs: Vec::new() });
    }
    let to = (count(&table.continuations) - 1).saturating_add(behind);
    table.escape_rows[at].ranges = row(bounds, to);
}

/// One more continuation has these contexts, and a config in the context of that number.
fn contexts(table: &mut Table, at: usize, contexts: &[[u32; 3]], context: u32) {
    let config =
        Config { state: 1, alternative: NONE, flags: [0, 1], context, actions: Vec::new() };
    let bad = Continuation { contexts: contexts.to_vec(), configs: vec![config] };
    table.continuations.insert(at, bad);
}
