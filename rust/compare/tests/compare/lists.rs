//! Every short list of words, over a few telling values; and every short list in the place of a
//! section of a table.

use compare::plain::table::{DEAD, NONE, TAG};

/// Every list of up to that many words over these values.
fn each_list(values: &[u32], longest: usize, mut visit: impl FnMut(&[u32])) {
    for length in 0..=longest {
        let mut digits = vec![0; length];
        let mut list = vec![values[0]; length];
        loop {
            visit(&list);
            // Counts on, the last word first.
            let Some(at) = digits.iter().rposition(|&digit| digit + 1 < values.len()) else {
                break;
            };
            digits[at] += 1;
            digits[at + 1..].fill(0);
            for place in at..length {
                list[place] = values[digits[place]];
            }
        }
    }
}

/// Lists of up to 9 words that start with the tag, of up to 12 over fewer values, and of up to 5
/// that start with anything.
pub fn each_short(mut visit: impl FnMut(&[u32])) -> usize {
    let mut cases = 0;
    let mut words = Vec::new();
    let mut visit = |front: &[u32], rest: &[u32]| {
        words.clear();
        words.extend(front);
        words.extend(rest);
        visit(&words);
        cases += 1;
    };
    each_list(&[0, 1, 2, 65535, 65536, NONE], 8, |rest| visit(&[TAG], rest));
    each_list(&[0, 1, NONE], 11, |rest| visit(&[TAG], rest));
    // 0x4C584407 is the tag of the published runtime.
    each_list(&[TAG, 0, 1, TAG - 1, TAG + 1, 0x4C58_4407, 0x0100_444C, NONE], 5, |rest| {
        visit(&[], rest)
    });
    cases
}

/// A table of two modes and one state that has something in every section, section by section.
fn sections() -> [Vec<u32>; 8] {
    [
        vec![2, 0, NONE],
        vec![1, 0, 0, DEAD, 0],
        vec![1, 1],
        [&[1][..], &[0; 64]].concat(),
        vec![1, 1, 128, 300, 0],
        vec![1, 7, 0, 0],
        vec![1, 0, 1, 40, 41, 0],
        vec![1, 1, 0, 0, 9, 1, 3, NONE, 0, 0, 1, 0],
    ]
}

/// Each section in turn is replaced by every list of up to so many words, with the sections behind
/// it and as the last words; the values are the bounds of its fields and those of its rules.
pub fn each_section(mut visit: impl FnMut(&[u32])) -> usize {
    const RANGES: u32 = 5 | 1 << 8;
    let mut cases = 0;
    let mut replaced = |section: usize, values: &[u32], longest: usize| {
        let whole = sections();
        let before = [&[TAG][..], &whole[..section].concat()].concat();
        let after = whole[section + 1..].concat();
        each_list(values, longest, |list| {
            visit(&[&before, list, &after].concat());
            visit(&[&before, list].concat());
            cases += 2;
        });
    };
    replaced(0, &[0, 1, 2, 3, 65533, 65534, 65535, 65536, NONE - 1, NONE], 4);
    replaced(1, &[0, 1, 2, 65534, 65535, 65536, NONE], 5);
    replaced(2, &[0, 1, 2, 3, 5, 6, 256, RANGES, 127 << 8, RANGES | 1 << 16, 14640, NONE], 4);
    replaced(4, &[0, 1, 2, 128, 65535, 65536, NONE], 5);
    replaced(4, &[0, 1, 2, 3], 8);
    replaced(5, &[0, 1, 2, NONE], 7);
    replaced(6, &[0, 1, 2, NONE], 8);
    replaced(7, &[0, 1, 2], 9);
    cases
}
