//! Intervals, segments and masks, by the original, which has them of a list of transitions.

use crate::segments::{Expected, Judge};
use compare::lists;
use compare::original::transitions;
use compare::plain::transitions::distinct;
use compare::seeded::Seeded;
use lexer_dfa::Transition;

/// The list as the original reads it. It does not list masks once each: that is document 01's.
pub fn original(list: &[Transition]) -> Expected {
    let list = transitions(list);
    let words = list.len().div_ceil(64);
    let masks = oracle::masks(&list);
    let matrix: Vec<Vec<u64>> = masks.chunks(words.max(1)).map(<[u64]>::to_vec).collect();
    let ends = oracle::intervals(&list).concat();
    Expected {
        transitions: list.len(),
        ends: ends.into_iter().flat_map(|(low, high)| [low as u32, high as u32 + 1]).collect(),
        segments: oracle::segments(&list)
            .into_iter()
            .flat_map(|(low, high)| [low as u32, high as u32])
            .collect(),
        distinct: distinct(&matrix).concat(),
        masks,
    }
}

/// Seeded lists of every kind that are within the limits.
pub fn seeded() -> usize {
    const LISTS: usize = 100_000;
    let mut from = Seeded::new(54);
    let mut judge = Judge::new(1);
    for _ in 0..LISTS {
        let list = lists::seeded(&mut from);
        judge.held(&lists::bytes(&list), Ok(&original(&list)));
    }
    LISTS
}

/// All lists of one transition or two over few numbers.
pub fn every_small() -> usize {
    const ENDS: [i32; 6] = [-1, 0, 5, 6, 0x10FFFF, 0x110000];
    let mut all = vec![Transition::Wildcard, Transition::Set(vec![]), Transition::NotSet(vec![])];
    for (i, &low) in ENDS.iter().enumerate() {
        all.push(Transition::Atom(low));
        all.extend(ENDS.map(|high| Transition::Range(low, high)));
        for &high in &ENDS[i..] {
            all.push(Transition::Set(vec![(low, high)]));
            all.push(Transition::NotSet(vec![(low, high)]));
        }
    }
    for i in 0..ENDS.len() - 2 {
        let pairs = vec![(ENDS[i], ENDS[i]), (ENDS[i + 1], ENDS[i + 2])];
        all.extend([Transition::Set(pairs.clone()), Transition::NotSet(pairs)]);
    }
    let mut judge = Judge::new(0);
    let mut judged = |list: &[Transition]| judge.held(&lists::bytes(list), Ok(&original(list)));
    for one in &all {
        judged(std::slice::from_ref(one));
        for two in &all {
            judged(&[one.clone(), two.clone()]);
        }
    }
    all.len() * (all.len() + 1)
}
