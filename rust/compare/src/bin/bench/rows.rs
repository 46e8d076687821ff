//! Segments, masks and rows of lists of transitions, and pools of rows.

use crate::timing::{alone, compare};
use compare::lists;
use compare::original::transitions;
use compare::seeded::Seeded;
use lexer_dfa::pools::{intern_ascii, intern_wide};
use lexer_dfa::rows::{MASK_WORDS, ROW_NUMBERS, RowBuffers, SEGMENT_NUMBERS};
use lexer_dfa::{RowBuilder, Transition, build_rows, char_segments, segment_mask_matrix};
use oracle::{LexerTransition, Pools, Rows};
use std::hint::black_box;

// Out of line on both sides: ours is behind the C face anyway.
#[inline(never)]
fn rust_segments(list: &[LexerTransition]) -> Vec<(i32, i32)> {
    oracle::segments(list)
}

#[inline(never)]
fn rust_masks(list: &[LexerTransition]) -> Vec<u64> {
    oracle::masks(list)
}

#[inline(never)]
fn rust_rows(list: &[LexerTransition], targets: &[u16], continuations: &[u32]) -> Rows {
    let mut given = targets.iter().copied().zip(continuations.iter().copied());
    oracle::rows(list, |_| given.next().expect("as many as masks"))
}

/// Lists of 8, 64 and 1,024 intervals in 4, 8 and 32 sets. A round is few calls, and so short that other
/// work on the machine rarely comes between.
pub fn builds() {
    for (intervals, sets, calls) in [(8, 4, 16), (64, 8, 8), (1024, 32, 1)] {
        build(&spread(intervals, sets), &format!("{intervals} intervals in {sets} sets"), calls);
    }
    zeros();
}

/// Sets of equally many pairs, which lie among ASCII and behind it and cut each other.
fn spread(intervals: usize, sets: usize) -> Vec<Transition> {
    let mut from = Seeded::new(81);
    let set = |_| {
        let mut next = from.below(64) as i32;
        let pairs = (0..intervals / sets).map(|_| {
            let low = next;
            let high = low + from.below(30) as i32;
            next = high + 2 + from.below(60) as i32;
            (low, high)
        });
        Transition::Set(pairs.collect())
    };
    (0..sets).map(set).collect()
}

fn build(list: &[Transition], name: &str, calls: usize) {
    let (bytes, theirs) = (&lists::bytes(list), transitions(list));
    let mut builder = RowBuilder::new();
    let masks = builder.distinct_masks(bytes).expect("a list within the limits").count();
    let (targets, continuations) = &lists::given(&mut Seeded::new(82), masks);

    let mut segments = vec![0; SEGMENT_NUMBERS];
    let ours = |_| char_segments(black_box(bytes), black_box(&mut segments));
    compare(&format!("char_segments {name}"), calls, |_| rust_segments(black_box(&theirs)), ours);
    let count = rust_segments(&theirs).len();
    assert_eq!(char_segments(bytes, &mut segments), Ok(count));

    let mut words = vec![0; MASK_WORDS];
    let ours =
        |_| segment_mask_matrix(black_box(bytes), black_box(&mut segments), black_box(&mut words));
    let name_of_masks = format!("segment_mask_matrix {name}");
    compare(&name_of_masks, calls, |_| rust_masks(black_box(&theirs)), ours);
    let masks = rust_masks(&theirs);
    assert_eq!(words[..masks.len()], masks);

    let rust = |_| rust_rows(black_box(&theirs), black_box(targets), black_box(continuations));
    let (ascii, wide, escape) = rust(0);
    let rows = builder.build(bytes, targets, continuations).expect("a list within the limits");
    assert_eq!(*rows.ascii, ascii, "{name}");
    assert_eq!((rows.wide.len(), rows.escape.len()), (wide.len(), escape.len()), "{name}");
    let ours = |_| {
        let rows = builder.build(black_box(bytes), black_box(targets), black_box(continuations));
        rows.expect("a list within the limits").wide.len()
    };
    compare(&format!("build_rows {name}, {count} segments"), calls, rust, ours);
}

/// What the calls have to read or write whatever the list; zeros are written by the C library's `memset`.
fn zeros() {
    let mut segments = vec![1_u32; SEGMENT_NUMBERS];
    let mut masks = vec![1_u64; MASK_WORDS];
    let mut rows = vec![1_u32; 2 * ROW_NUMBERS];
    let calls = 16;
    alone("zeros of the segments' buffer alone", calls, |_| black_box(&mut segments).fill(0));
    alone("zeros of the buffers of segments and masks alone", calls, |_| {
        black_box(&mut segments).fill(0);
        black_box(&mut masks).fill(0);
    });
    let mut distinct = vec![1_u64; MASK_WORDS];
    // What all six take, turn by turn with the original's whole row call at 8 intervals.
    let list = spread(8, 4);
    let theirs = transitions(&list);
    let masks_of_list = RowBuilder::new().distinct_masks(&lists::bytes(&list)).map(Iterator::count);
    let (targets, continuations) =
        lists::given(&mut Seeded::new(82), masks_of_list.expect("a list within the limits"));
    let rust = |_| rust_rows(black_box(&theirs), black_box(&targets), black_box(&continuations));
    compare("the six buffers read, 16 bytes at a time", calls, rust, |_| {
        let numbers = numbers::bits(black_box(&segments)) | numbers::bits(black_box(&rows));
        u64::from(numbers) | words::bits(black_box(&masks)) | words::bits(black_box(&distinct))
    });
    #[cfg(target_arch = "x86_64")]
    if is_x86_feature_detected!("avx512f") {
        compare("the six buffers read, 64 bytes at a time", calls, rust, |_| {
            // SAFETY: the processor has what the functions are compiled for.
            unsafe {
                let numbers =
                    numbers::wide_bits(black_box(&segments)) | numbers::wide_bits(black_box(&rows));
                let masks =
                    words::wide_bits(black_box(&masks)) | words::wide_bits(black_box(&distinct));
                u64::from(numbers) | masks
            }
        });
    }
    compare("the six buffers written", calls, rust, |_| {
        black_box(&mut segments).fill(0);
        black_box(&mut masks).fill(0);
        black_box(&mut distinct).fill(0);
        black_box(&mut rows).fill(0);
    });
    // A list that is refused at its first byte costs a row call just these, and the call.
    let mut ascii = [0; 128];
    let (wide, escape) = rows.split_at_mut(ROW_NUMBERS);
    alone("build_rows of a list that is refused", calls, |_| {
        let lent = RowBuffers {
            segments: &mut segments,
            masks: &mut masks,
            distinct: &mut distinct,
            ascii: &mut ascii,
            wide,
            escape,
        };
        build_rows(black_box(&[6, 0, 0]), &[], &[], lent)
    });
}

// The bits of all numbers together, eight loads beside each other: no faster way to read them was found.
// A call that leaves zeros in a buffer of whatever numbers has to read each of them, or to write it.
macro_rules! reading {
    ($module:ident, $number:ty) => {
        mod $module {
            #[inline(always)]
            fn joined<const LANES: usize>(numbers: &[$number]) -> $number {
                let (parts, rest) = numbers.as_chunks::<LANES>();
                let mut bits = [0; LANES];
                for part in parts {
                    for (bits, number) in bits.iter_mut().zip(part) {
                        *bits |= number;
                    }
                }
                bits.iter().chain(rest).fold(0, |bits, number| bits | number)
            }

            /// By what every processor of the kind has.
            #[inline(never)]
            pub fn bits(numbers: &[$number]) -> $number {
                joined::<{ 8 * 16 / size_of::<$number>() }>(numbers)
            }

            /// By the widest loads that there are.
            #[cfg(target_arch = "x86_64")]
            #[target_feature(enable = "avx512f")]
            pub fn wide_bits(numbers: &[$number]) -> $number {
                joined::<{ 8 * 64 / size_of::<$number>() }>(numbers)
            }
        }
    };
}
reading!(numbers, u32);
reading!(words, u64);

/// Rows that stand in their pool, asked for in seeded order.
pub fn pools() {
    const CALLS: usize = 512;
    for count in [16, 256] {
        let mut from = Seeded::new(83);
        let order: Vec<usize> = (0..CALLS).map(|_| from.below(count)).collect();
        let mut theirs = Pools::default();
        let ascii: Vec<[u16; 128]> =
            (0..count).map(|_| std::array::from_fn(|_| from.pick(&[65535, 65535, 3, 7]))).collect();
        let mut pool = ascii.concat();
        for &row in &ascii {
            theirs.intern_ascii(row);
        }
        let rust = |call: usize| theirs.intern_ascii(ascii[order[call]]) as usize;
        let ours = |call: usize| {
            intern_ascii(black_box(&mut pool), count, &ascii[order[call]]).expect("it stands there")
        };
        compare(&format!("intern_ascii, one of {count} rows"), CALLS, rust, ours);

        let wide: Vec<Vec<(u32, u32, u16)>> = (0..count as u32)
            .map(|row| (0..8).map(|i| (128 + 90 * i + row, 200 + 90 * i, i as u16)).collect())
            .collect();
        let numbers: Vec<Vec<u32>> = wide
            .iter()
            .map(|row| row.iter().flat_map(|&(l, h, to)| [l, h, u32::from(to)]).collect())
            .collect();
        let mut pool: Vec<u32> = numbers.iter().flat_map(|row| [&[8], &row[..]].concat()).collect();
        for row in &wide {
            theirs.intern_wide(row);
        }
        let rust = |call: usize| theirs.intern_wide(&wide[order[call]]) as usize;
        let ours = |call: usize| {
            intern_wide(black_box(&mut pool), count, &numbers[order[call]])
                .expect("it stands there")
        };
        compare(&format!("intern_wide, one of {count} rows of 8 ranges"), CALLS, rust, ours);
    }
}
