//! Lists of transitions: read record by record, their intervals, segments and masks.

use super::refusal;
use lexer_dfa::{Refusal, Transition};
use std::collections::BTreeSet;

const LAST_POINT: i64 = 0x10FFFF;

/// The transitions of a list. A record is judged whole, and the limits behind it.
pub fn read(list: &[u8]) -> Result<Vec<Transition>, Refusal> {
    let (mut read, mut intervals_so_far) = (Vec::new(), 0);
    let mut at = 0;
    while at < list.len() {
        let (transition, next) = record(list, at)?;
        intervals_so_far += intervals(&transition).len();
        read.push(transition);
        if read.len() > 256 || intervals_so_far > 1024 {
            return refusal(4, at);
        }
        at = next;
    }
    Ok(read)
}

/// The record at an offset and the offset of the next: "SHORT, FIELD (tag, then length), ORDER".
fn record(list: &[u8], at: usize) -> Result<(Transition, usize), Refusal> {
    let [tag, low, high, rest @ ..] = &list[at..] else {
        return refusal(1, at);
    };
    let length = usize::from(u16::from_le_bytes([*low, *high]));
    let Some(value) = rest.get(..length) else {
        return refusal(1, at);
    };
    let numbers: Vec<i32> =
        value.as_chunks().0.iter().map(|&four| i32::from_le_bytes(four)).collect();
    let pairs = || numbers.as_chunks().0.iter().map(|&[low, high]| (low, high)).collect();
    let transition = match (tag, length) {
        (1, 4) => Transition::Atom(numbers[0]),
        (2, 8) => Transition::Range(numbers[0], numbers[1]),
        (3, length) if length % 8 == 0 => Transition::Set(pairs()),
        (4, length) if length % 8 == 0 => Transition::NotSet(pairs()),
        (5, 0) => Transition::Wildcard,
        _ => return refusal(3, at),
    };
    if let Transition::Set(pairs) | Transition::NotSet(pairs) = &transition {
        let each = pairs.iter().all(|(low, high)| low <= high);
        let next = pairs.windows(2).all(|two| two[0].1 < two[1].0);
        if !(each && next) {
            return refusal(10, at);
        }
    }
    Ok((transition, at + 3 + length))
}

/// The intervals of a transition, cut to the points, empty ones dropped. A not-set gives the gaps.
pub fn intervals(transition: &Transition) -> Vec<(u32, u32)> {
    let pieces: Vec<(i64, i64)> = match transition {
        Transition::Atom(number) => vec![(i64::from(*number), i64::from(*number))],
        Transition::Range(low, high) => vec![(i64::from(*low), i64::from(*high))],
        Transition::Set(pairs) => wider(pairs),
        Transition::NotSet(pairs) => {
            let pairs = wider(pairs);
            let lows = [0].into_iter().chain(pairs.iter().map(|&(_, high)| high + 1));
            let highs = pairs.iter().map(|&(low, _)| low - 1).chain([LAST_POINT]);
            lows.zip(highs).collect()
        }
        Transition::Wildcard => vec![(0, LAST_POINT)],
    };
    let cut = pieces.into_iter().map(|(low, high)| (low.max(0), high.min(LAST_POINT)));
    cut.filter(|(low, high)| low <= high).map(|(low, high)| (low as u32, high as u32)).collect()
}

fn wider(pairs: &[(i32, i32)]) -> Vec<(i64, i64)> {
    pairs.iter().map(|&(low, high)| (i64::from(low), i64::from(high))).collect()
}

/// Whether a transition holds a point: by its record, and not by its intervals.
pub fn holds(transition: &Transition, point: u32) -> bool {
    let point = i64::from(point);
    let within = |&(low, high): &(i32, i32)| i64::from(low) <= point && point <= i64::from(high);
    match transition {
        Transition::Atom(number) => i64::from(*number) == point,
        Transition::Range(low, high) => within(&(*low, *high)),
        Transition::Set(pairs) => pairs.iter().any(within),
        Transition::NotSet(pairs) => !pairs.iter().any(within),
        Transition::Wildcard => true,
    }
}

/// The segments, low and high each: from every cut to before the next.
pub fn segments(list: &[Transition]) -> Vec<(u32, u32)> {
    let intervals = list.iter().flat_map(intervals);
    let cuts: BTreeSet<u32> = intervals.flat_map(|(low, high)| [low, high + 1]).collect();
    let cuts: Vec<u32> = cuts.into_iter().collect();
    cuts.windows(2).map(|two| (two[0], two[1] - 1)).collect()
}

/// The words of a point's mask: bit i is set where transition i holds it.
pub fn mask(list: &[Transition], point: u32) -> Vec<u64> {
    let mut words = vec![0; list.len().div_ceil(64)];
    put_mask(list, point, &mut words);
    words
}

/// The same, into words that there are already.
pub fn put_mask(list: &[Transition], point: u32, words: &mut [u64]) {
    words.fill(0);
    for (i, transition) in list.iter().enumerate() {
        words[i / 64] |= u64::from(holds(transition, point)) << (i % 64);
    }
}

/// The mask of each segment.
pub fn matrix(list: &[Transition]) -> Vec<Vec<u64>> {
    segments(list).into_iter().map(|(low, _)| mask(list, low)).collect()
}

/// "Distinct nonzero masks come in order of first segment."
pub fn distinct(matrix: &[Vec<u64>]) -> Vec<Vec<u64>> {
    let mut distinct: Vec<Vec<u64>> = Vec::new();
    for mask in matrix {
        if mask.iter().any(|&word| word != 0) && !distinct.contains(mask) {
            distinct.push(mask.clone());
        }
    }
    distinct
}
