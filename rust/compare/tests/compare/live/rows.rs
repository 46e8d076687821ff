//! Rows by the original: its segments and masks, and what it splits and merges of them.

use super::segments::original;
use crate::rows::Judge;
use compare::lists;
use compare::original::transitions;
use compare::plain::rows::{Lent, Rows};
use compare::seeded::Seeded;
use lexer_dfa::Transition;

/// The rows that the original makes, where masks are given these in the order in which it asks.
fn rows(list: &[Transition], targets: &[u16], continuations: &[u32]) -> Rows {
    let mut given = targets.iter().copied().zip(continuations.iter().copied());
    let (ascii, wide, escape) = oracle::rows(&transitions(list), |_| given.next().expect("a mask"));
    assert_eq!(given.next(), None, "a mask that the original did not ask for");
    Rows {
        ascii,
        wide: wide.into_iter().map(|(low, high, target)| [low, high, target.into()]).collect(),
        escape: escape.into_iter().map(|(low, high, goal)| [low, high, goal]).collect(),
    }
}

/// Seeded lists of every kind that are within the limits, with seeded targets and continuations.
pub fn seeded() -> usize {
    const LISTS: usize = 100_000;
    let mut from = Seeded::new(63);
    let mut judge = Judge::new(Lent::ENOUGH);
    for _ in 0..LISTS {
        let list = lists::seeded(&mut from);
        let bytes = lists::bytes(&list);
        let original = original(&list);
        let masks = original.masked(&original.distinct).masks;
        let (targets, continuations) = lists::given(&mut from, masks);
        let rows = rows(&list, &targets, &continuations);
        judge.held(&bytes, (&targets, &continuations), Ok((&original, &rows)));
    }
    LISTS
}
