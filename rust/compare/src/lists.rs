//! Seeded lists of transitions, and what damages their bytes.

use crate::plain::transitions::intervals;
use crate::seeded::Seeded;
use lexer_dfa::{Transition, list_bytes};

/// Numbers at which something changes: around 0, 128, the last point and the ends of 32 bits.
const TELLING: [i32; 16] = [
    i32::MIN,
    i32::MIN + 1,
    -129,
    -1,
    0,
    1,
    126,
    127,
    128,
    129,
    0xFFFF,
    0x10FFFE,
    0x10FFFF,
    0x110000,
    i32::MAX - 1,
    i32::MAX,
];

/// A number that tells, a small one, a point, or any.
fn number(from: &mut Seeded) -> i32 {
    match from.below(8) {
        0 => from.pick(&TELLING),
        1..=4 => from.below(300) as i32 - 20,
        5 | 6 => from.below(0x110000) as i32,
        _ => from.word() as i32,
    }
}

/// Up to that many pairs in order, some of one number, some that touch.
fn pairs(from: &mut Seeded, most: usize) -> Vec<(i32, i32)> {
    let mut numbers: Vec<i32> = (0..2 * from.below(most + 1)).map(|_| number(from)).collect();
    numbers.sort_unstable();
    numbers.dedup();
    let mut pairs: Vec<(i32, i32)> =
        numbers.as_chunks().0.iter().map(|&[low, high]| (low, high)).collect();
    for i in 0..pairs.len() {
        match from.below(4) {
            0 => pairs[i].1 = pairs[i].0,
            1 if i + 1 < pairs.len() => pairs[i].1 = pairs[i + 1].0 - 1,
            _ => {}
        }
    }
    pairs
}

fn transition(from: &mut Seeded) -> Transition {
    match from.below(12) {
        0..=2 => Transition::Atom(number(from)),
        // One in four of them is inverted, or may be.
        3..=5 => {
            let ends = [number(from), number(from)];
            match from.below(4) {
                0 => Transition::Range(ends[0], ends[1]),
                _ => Transition::Range(ends[0].min(ends[1]), ends[0].max(ends[1])),
            }
        }
        6..=8 => Transition::Set(pairs(from, 6)),
        9 | 10 => Transition::NotSet(pairs(from, 6)),
        _ => Transition::Wildcard,
    }
}

/// A list that is within the limits: nothing to seven transitions; one in 40 has about as many as fill
/// a word of a mask, two, three or four, and one in 400 as many intervals as it may have, or nearly.
pub fn seeded(from: &mut Seeded) -> Vec<Transition> {
    match from.below(400) {
        0 => {
            let count = from.pick(&[1000, 1023, 1024]);
            crowded(from, count)
        }
        1..=10 => {
            let count = from.pick(&[63, 64, 65, 127, 128, 129, 191, 192, 193, 255, 256]);
            let mut list: Vec<Transition> = (0..count).map(|_| transition(from)).collect();
            // Sets give way to atoms until the limit is kept.
            let mut at = 0;
            while interval_count(&list) > 1024 {
                list[at] = Transition::Atom(number(from));
                at += 1;
            }
            list
        }
        _ => (0..from.below(8)).map(|_| transition(from)).collect(),
    }
}

pub fn interval_count(list: &[Transition]) -> usize {
    list.iter().map(|transition| intervals(transition).len()).sum()
}

/// A list of exactly that many intervals, in sets and not-sets of up to 300, some touching.
pub fn crowded(from: &mut Seeded, count: usize) -> Vec<Transition> {
    let mut list = Vec::new();
    let mut left = count;
    while left > 0 {
        let most = (1 + from.below(300)).min(left);
        let mut next = from.below(1000) as i32;
        let pairs: Vec<(i32, i32)> = (0..most)
            .map(|_| {
                let low = next;
                let high = low + from.below(40) as i32;
                next = high + 1 + from.below(3) as i32;
                (low, high)
            })
            .collect();
        let gaps = Transition::NotSet(pairs.clone());
        if from.below(3) == 0 && intervals(&gaps).len() <= left {
            left -= intervals(&gaps).len();
            list.push(gaps);
        } else {
            left -= most;
            list.push(Transition::Set(pairs));
        }
    }
    list
}

/// The bytes of a list. None of the lists here has a set too long for a record.
pub fn bytes(list: &[Transition]) -> Vec<u8> {
    list_bytes(list).expect("at most 8,191 pairs in each set")
}

/// What the caller may have given that many masks: targets, some dead, and continuations, some none.
/// There are few of either, so that neighbours are joined.
pub fn given(from: &mut Seeded, masks: usize) -> (Vec<u16>, Vec<u32>) {
    let targets = [65535, 65534, 0, 3, 7].map(|target| match from.below(4) {
        0 => from.word() as u16,
        _ => target,
    });
    let continuations = [u32::MAX, u32::MAX, 0, 1, from.word()];
    let mut give = |_| (from.pick(&targets), from.pick(&continuations));
    (0..masks).map(&mut give).unzip()
}

/// Changes the bytes of a list in a way that may break it: a cut, a byte, a bit of a length or a
/// number, two bytes exchanged, or a record put in or left out in the middle.
pub fn damage(from: &mut Seeded, bytes: &mut Vec<u8>) {
    if bytes.is_empty() {
        bytes.push(from.pick(&[0, 1, 3, 5, 6]));
        return;
    }
    let at = from.below(bytes.len());
    match from.below(8) {
        0 => bytes.truncate(at),
        1 | 2 => bytes[at] = from.pick(&[0, 1, 2, 3, 4, 5, 6, 8, 16, 127, 128, 255]),
        3 | 4 => bytes[at] ^= 1 << from.below(8),
        5 => {
            let other = from.below(bytes.len());
            bytes.swap(at, other);
        }
        6 => {
            bytes.remove(at);
        }
        _ => bytes.insert(at, from.word() as u8),
    }
}

/// Puts the pairs of a set of the list out of order, where there is one to put so.
pub fn disorder(from: &mut Seeded, list: &mut [Transition]) {
    let place = from.below(list.len().max(1));
    if let Some(Transition::Set(pairs) | Transition::NotSet(pairs)) = list.get_mut(place)
        && !pairs.is_empty()
    {
        let i = from.below(pairs.len());
        match from.below(4) {
            0 => pairs[i] = (pairs[i].1, pairs[i].0),
            1 => pairs.swap(i, 0),
            2 => pairs.insert(i, pairs[i]),
            _ => pairs[i].1 = number(from),
        }
    }
}
