//! Tables that obey all nine rules, of seeded parts.

use crate::plain::classification;
use crate::plain::table::{
    Accept, Config, Continuation, DEAD, ESCAPE, EscapeRow, NONE, Range, State, Table,
};
use crate::seeded::Seeded;
use crate::tables::words;

/// A table of that many states. Rows are shared, and some are used by no state.
pub fn table(from: &mut Seeded, states: usize) -> Table {
    let some = |from: &mut Seeded| from.below(states + 2);
    let (ascii_rows, wide_rows, accepts) = (some(from), some(from), some(from));
    let continuations = from.below(2 + states / 2);
    // A state must have its rows.
    let least = usize::from(states > 0);
    let (ascii_rows, wide_rows) = (ascii_rows.max(least), wide_rows.max(least));

    let mut table = Table {
        modes: (0..from.below(5)).map(|_| mode(from, states)).collect(),
        ascii_rows: (0..ascii_rows).map(|number| ascii_row(from, states, number)).collect(),
        wide_rows: (0..wide_rows).map(|_| wide_row(from, states)).collect(),
        accepts: (0..accepts).map(|_| accept(from)).collect(),
        escape_rows: (0..states).map(|_| escape_row(from, continuations)).collect(),
        continuations: (0..continuations).map(|_| continuation(from)).collect(),
        ..Table::default()
    };
    for number in 0..states {
        table.states.push(State {
            // Mostly the row that was made for this state, on which it loops.
            ascii_row: match from.below(4) {
                0 => from.below(ascii_rows) as u32,
                _ => number.min(ascii_rows - 1) as u32,
            },
            wide_row: from.below(wide_rows) as u32,
            eof_target: target(from, states),
            accept: index(from, accepts),
        });
    }
    classify(&mut table);
    table
}

/// Gives every state the run of its row.
pub fn classify(table: &mut Table) {
    let run = |(state, number): (&State, u16)| {
        classification(&table.ascii_rows[state.ascii_row as usize], number)
    };
    table.runs = table.states.iter().zip(0..).map(run).collect();
}

/// Adds records that no state uses until the table has exactly that many words.
pub fn fill(from: &mut Seeded, table: &mut Table, length: usize) {
    let states = table.states.len();
    loop {
        let left = length - words(table).len();
        let before = table.clone();
        match from.below(8) {
            _ if left == 0 => return,
            0 => table.modes.push(mode(from, states)),
            1 => table.accepts.push(accept(from)),
            2 => table.continuations.push(continuation(from)),
            3 | 4 => table.wide_rows.push(wide_row(from, states)),
            _ if left < 64 => table.wide_rows.push(Vec::new()),
            _ => table.ascii_rows.push(ascii_row(from, states, states)),
        }
        if words(table).len() > length {
            *table = before;
        }
    }
}

/// A state, or one of the two targets that are none.
fn target(from: &mut Seeded, states: usize) -> u32 {
    match from.below(8) {
        0 => ESCAPE,
        1 => DEAD,
        _ if states == 0 => DEAD,
        _ => from.below(states) as u32,
    }
}

/// An index into a list of that length, or NONE.
fn index(from: &mut Seeded, length: usize) -> u32 {
    match from.below(3) {
        0 => NONE,
        _ if length == 0 => NONE,
        _ => from.below(length) as u32,
    }
}

/// Words that a field may have which takes any.
fn any(from: &mut Seeded) -> u32 {
    let (few, far) = (from.below(100) as u32, from.word());
    from.pick(&[0, 1, 2, few, few, few, far, DEAD, 65536, NONE - 1, NONE])
}

fn flag(from: &mut Seeded) -> u32 {
    let far = from.word();
    from.pick(&[0, 0, 0, 1, 1, 1, 2, 256, 65536, 1 << 31, far, NONE])
}

fn mode(from: &mut Seeded, states: usize) -> u32 {
    index(from, states)
}

/// A row on which the state of that number loops in some way, where there is such a state.
fn ascii_row(from: &mut Seeded, states: usize, number: usize) -> Vec<u16> {
    let home = if number < states { number as u32 } else { target(from, states) };
    let others = [(); 3].map(|()| target(from, states));
    // Some rows lead to a few targets, some to many.
    let many = from.below(4) == 0;
    let loops = from.looping();
    let lead = |looping: bool| match looping {
        true => home as u16,
        false if many => target(from, states) as u16,
        false => from.pick(&others) as u16,
    };
    loops.into_iter().map(lead).collect()
}

fn wide_row(from: &mut Seeded, states: usize) -> Vec<Range> {
    let most = from.below(7);
    ranges(from, most, |from| target(from, states))
}

/// Up to that many ranges, in order: below 128 and above 0x10FFFF too, some of one point, some that
/// touch.
fn ranges(from: &mut Seeded, most: usize, to: impl Fn(&mut Seeded) -> u32) -> Vec<Range> {
    let far = from.word();
    let mut next = u64::from(from.pick(&[0, 48, 127, 128, 0xC0, 0x10FFFF, 0x110000, far]));
    let mut ranges = Vec::new();
    for _ in 0..most {
        let low = next + far_or_near(from);
        let high = low + far_or_near(from);
        let (Ok(low), Ok(high)) = (u32::try_from(low), u32::try_from(high)) else { break };
        ranges.push(Range { low, high, to: to(from) });
        next = u64::from(high) + 1;
    }
    ranges
}

fn far_or_near(from: &mut Seeded) -> u64 {
    match from.below(6) {
        0 | 1 => 0,
        2 => 1,
        3 => from.below(100) as u64,
        4 => from.below(0x10000) as u64,
        _ => u64::from(from.word() >> 6),
    }
}

fn actions(from: &mut Seeded) -> Vec<[u32; 3]> {
    let count = from.pick(&[0, 0, 0, 1, 1, 2]);
    (0..count).map(|_| [(); 3].map(|()| any(from))).collect()
}

fn accept(from: &mut Seeded) -> Accept {
    Accept { rule: any(from), consumed_eof: flag(from), actions: actions(from) }
}

fn escape_row(from: &mut Seeded, continuations: usize) -> EscapeRow {
    let most = if continuations == 0 { 0 } else { from.below(4) };
    EscapeRow {
        eof: index(from, continuations),
        ranges: ranges(from, most, |from| from.below(continuations) as u32),
    }
}

fn continuation(from: &mut Seeded) -> Continuation {
    let (contexts, configs) = (from.below(5), from.below(4));
    Continuation {
        contexts: (1..=contexts).map(|number| context(from, number)).collect(),
        configs: (0..configs).map(|_| config(from, contexts)).collect(),
    }
}

/// The context of that number, which refers only below it.
fn context(from: &mut Seeded, number: usize) -> [u32; 3] {
    let below = [(); 2].map(|()| from.below(number) as u32);
    match from.below(2) {
        0 => [0, below[0], any(from)],
        _ => [1, below[0], below[1]],
    }
}

fn config(from: &mut Seeded, contexts: usize) -> Config {
    Config {
        state: any(from),
        alternative: any(from),
        flags: [flag(from), flag(from)],
        context: from.below(contexts + 1) as u32,
        actions: actions(from),
    }
}
