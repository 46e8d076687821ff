//! The words of a table, right or wrong: each section its count, then its records.

use crate::plain::table::{Accept, Config, Continuation, EscapeRow, Range, State, TAG, Table};

pub fn words(table: &Table) -> Vec<u32> {
    let mut out = vec![TAG];
    list(&table.modes, &mut out, |&start, out| out.push(start));
    list(&table.states, &mut out, state);
    list(&table.runs, &mut out, |run, out| out.extend(run));
    list(&table.ascii_rows, &mut out, |row, out| ascii_row(row, out));
    list(&table.wide_rows, &mut out, |row, out| list(row, out, range));
    list(&table.accepts, &mut out, accept);
    list(&table.escape_rows, &mut out, escape_row);
    list(&table.continuations, &mut out, continuation);
    out
}

type Out = Vec<u32>;

fn list<T>(items: &[T], out: &mut Out, write: impl Fn(&T, &mut Out)) {
    out.push(items.len() as u32);
    for item in items {
        write(item, out);
    }
}

fn state(state: &State, out: &mut Out) {
    out.extend([state.ascii_row, state.wide_row, state.eof_target, state.accept]);
}

fn ascii_row(row: &[u16], out: &mut Out) {
    out.extend(row.chunks(2).map(|pair| u32::from(pair[0]) | u32::from(pair[1]) << 16));
}

fn range(range: &Range, out: &mut Out) {
    out.extend([range.low, range.high, range.to]);
}

fn three_words(words: &[u32; 3], out: &mut Out) {
    out.extend(words);
}

fn accept(accept: &Accept, out: &mut Out) {
    out.extend([accept.rule, accept.consumed_eof]);
    list(&accept.actions, out, three_words);
}

fn escape_row(row: &EscapeRow, out: &mut Out) {
    out.push(row.eof);
    list(&row.ranges, out, range);
}

fn continuation(continuation: &Continuation, out: &mut Out) {
    list(&continuation.contexts, out, three_words);
    list(&continuation.configs, out, config);
}

fn config(config: &Config, out: &mut Out) {
    out.extend([config.state, config.alternative]);
    out.extend(config.flags);
    out.push(config.context);
    list(&config.actions, out, three_words);
}
