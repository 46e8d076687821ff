//! Coverage by the plain reading of document 01: of tables, and of rooms that are none.

use crate::rooms;
use compare::plain::{self, coverage as by_ranges};
use compare::seeded::Seeded;
use compare::tables;
use lexer_dfa::{ROOM_NUMBERS, Table, lookup};

/// Every state of seeded tables of every size, and states that are not there.
pub fn seeded() -> usize {
    const TABLES: usize = 10_000;
    let mut from = Seeded::new(31);
    let mut cases = 0;
    for _ in 0..TABLES {
        let table = match from.below(200) {
            0 => tables::full(&mut from, 8192),
            1..=10 => tables::middle(&mut from),
            _ => tables::small(&mut from),
        };
        let ours = Table::decode(&tables::words(&table)).expect("the library accepts the table");
        let states = table.states.len() as u16;
        for state in 0..states {
            let expected = by_ranges::points(&table, state);
            assert_eq!(ours.coverage(state), Ok(expected), "state {state} of {table:?}");
        }
        for state in [states, 65533, 65534, 65535] {
            assert_eq!(ours.coverage(state), plain::refusal(8, 0));
        }
        cases += usize::from(states) + 4;
    }
    cases
}

/// Whole rooms, longer and shorter ones, rooms with one number or two changed, and rooms with a
/// number behind what is used.
pub fn strange() -> usize {
    const TABLES: usize = 2_000;
    let mut from = Seeded::new(32);
    let (mut cases, mut refused) = (0, 0);
    let mut ask = |room: &[u32], state: u16| {
        let expected = by_ranges::coverage(room, state);
        assert_eq!(lookup::coverage(room, state), expected, "{:?}", &room[..room.len().min(400)]);
        cases += 1;
        refused += usize::from(expected == plain::refusal(9, 0));
    };
    for _ in 0..TABLES {
        let words = tables::words(&tables::small(&mut from));
        let state = from.pick(&[0, 0, 0, 1, 2, 3, 65535]);
        let more = from.below(3);
        let good = plain::room(&words, ROOM_NUMBERS + more);
        ask(&good, state);
        ask(&good[..ROOM_NUMBERS], state);
        ask(&good[..ROOM_NUMBERS - 1], state);
        let used = rooms::used(&words);
        ask(&used, state);
        let places = rooms::telling_places(&words, &used);
        for _ in 0..8 {
            let mut room = good.clone();
            for _ in 0..from.pick(&[1, 1, 1, 1, 2]) {
                rooms::change(&mut from, &mut room[..used.len()], &places);
            }
            ask(&room, state);
        }
        let mut room = good.clone();
        let behind = used.len() + from.below(room.len() - used.len());
        room[behind] = from.pick(&[1, 9, 65535, u32::MAX]);
        ask(&room, state);
        ask(&plain::room(&[], ROOM_NUMBERS), state);
    }
    assert!(refused > 0 && refused < cases, "{refused} of {cases} are no table");
    cases
}
