//! Coverage by the original's own targets, code point by code point.

use compare::original;
use compare::seeded::Seeded;
use compare::tables;
use lexer_dfa::{DEAD_STATE, Table};

/// Every point of every state of seeded tables; a state is one case.
pub fn every_point() -> usize {
    const TABLES: usize = 60;
    let mut from = Seeded::new(33);
    let (mut asked, mut cases) = (0, 0);
    while asked < TABLES {
        let table = match from.below(10) {
            0 => tables::middle(&mut from),
            _ => tables::small(&mut from),
        };
        if table.states.is_empty() {
            continue;
        }
        let words = tables::words(&table);
        let theirs = original::decode(&words).expect("the original accepts the table");
        let ours = Table::decode(&words).expect("the library accepts the table");
        for state in 0..table.states.len() as u16 {
            let goes_on = |&point: &i32| theirs.char_target(state, point) != DEAD_STATE;
            let points = (0..=0x10FFFF).filter(goes_on).count();
            assert_eq!(ours.coverage(state), Ok(points as u32), "state {state} of {table:?}");
        }
        cases += table.states.len();
        asked += 1;
    }
    cases
}
