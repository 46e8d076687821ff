//! Runs: their words, and the run that a row has.

use super::{field, short};
use crate::seeded::range_words;
use lexer_dfa::Refusal;

/// How many words the run at word `at` has. A run whose low byte is 5 reads its three words before
/// FIELD, so there SHORT wins.
pub fn read_run(words: &[u32], at: usize) -> Result<usize, Refusal> {
    let rest = words.get(at..).unwrap_or_default();
    let Some(first) = rest.first() else {
        return short(words);
    };
    let [kind, others @ ..] = first.to_le_bytes();
    let exits = match kind {
        0 | 1 => 0,
        2 => 1,
        3 => 2,
        4 => 3,
        5 => {
            let [_, second, third, ..] = rest else {
                return short(words);
            };
            let [count, upper_half @ ..] = others;
            if upper_half == [0, 0] && are_ranges(count, *second, *third) {
                return Ok(3);
            }
            return field(at);
        }
        _ => return field(at),
    };
    let (used, unused) = others.split_at(exits);
    if used.iter().all(|&exit| exit < 128) && unused.iter().all(|&byte| byte == 0) {
        return Ok(1);
    }
    field(at)
}

/// One to four ranges as low, high bytes, least byte first: each low at most its high, highs at
/// most 127, each high + 1 below the next low, unused places 0.
fn are_ranges(count: u8, second: u32, third: u32) -> bool {
    let bytes = [second.to_le_bytes(), third.to_le_bytes()].concat();
    let pairs: Vec<(u8, u8)> = bytes.chunks(2).map(|pair| (pair[0], pair[1])).collect();
    if !(1..=4).contains(&count) {
        return false;
    }
    let (used, unused) = pairs.split_at(usize::from(count));
    used.iter().all(|&(low, high)| low <= high && high <= 127)
        && used.windows(2).all(|next| next[0].1 + 1 < next[1].0)
        && unused.iter().all(|&pair| pair == (0, 0))
}

/// A scan takes the words of exactly one run.
pub fn one_run(words: &[u32]) -> Result<(), Refusal> {
    match read_run(words, 0) {
        Ok(length) if length == words.len() => Ok(()),
        _ => field(0),
    }
}

/// Class takes the three words of a run of kind 5.
pub fn three_words(words: &[u32]) -> Result<(), Refusal> {
    match read_run(words, 0) {
        Ok(3) if words.len() == 3 => Ok(()),
        _ => field(0),
    }
}

/// Classification takes 128 targets.
pub fn row(row: &[u16]) -> Result<(), Refusal> {
    if row.len() == 128 {
        return Ok(());
    }
    field(0)
}

/// The words of the run of a row. Symbols that do not loop on the state are exits: none give any,
/// one to three until, ascending; otherwise the maximal looping ranges if they are one to four,
/// else none.
pub fn classification(row: &[u16], state: u16) -> Vec<u32> {
    let loops = |symbol: usize| row[symbol] == state;
    let exits: Vec<u32> =
        (0..128).filter(|&symbol| !loops(symbol)).map(|exit| exit as u32).collect();
    match exits[..] {
        [] => vec![1],
        [a] => vec![2 | a << 8],
        [a, b] => vec![3 | a << 8 | b << 16],
        [a, b, c] => vec![4 | a << 8 | b << 16 | c << 24],
        _ => {
            let lows = (0..128).filter(|&low| loops(low) && (low == 0 || !loops(low - 1)));
            let highs = (0..128).filter(|&high| loops(high) && (high == 127 || !loops(high + 1)));
            let ranges: Vec<(u8, u8)> =
                lows.zip(highs).map(|(low, high)| (low as u8, high as u8)).collect();
            if (1..=4).contains(&ranges.len()) { range_words(&ranges).to_vec() } else { vec![0] }
        }
    }
}

/// How many bytes of the input the run with these words skips, and whether an exit was found;
/// nothing where there is no run. Until-runs stop only at their exit bytes and pass bytes of 128
/// and above; ranges stop there; any takes all.
pub fn scan(words: &[u32], input: &[u8]) -> Option<(usize, bool)> {
    let bytes: Vec<u8> = words.iter().flat_map(|word| word.to_le_bytes()).collect();
    let loops = |byte: u8| match bytes[0] {
        1 => true,
        kind @ 2..=4 => !bytes[1..usize::from(kind)].contains(&byte),
        _ => bytes[4..][..2 * usize::from(bytes[1])]
            .chunks(2)
            .any(|range| (range[0]..=range[1]).contains(&byte)),
    };
    if bytes[0] == 0 {
        return None;
    }
    let exit = input.iter().position(|&byte| !loops(byte));
    Some((exit.unwrap_or(input.len()), exit.is_some()))
}
