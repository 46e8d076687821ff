//! Row building by the plain reading of document 01: the answer or the refusal, every number of the six
//! buffers, and the rows at every code point.

use crate::segments::{Expected, is_left, plainly};
use compare::lists;
use compare::plain::rows::{Lent, Rows, build};
use compare::plain::table::{DEAD, NONE};
use compare::plain::transitions as plain;
use compare::seeded::Seeded;
use lexer_dfa::rows::{Built, RowBuffers};
use lexer_dfa::{Refusal, RowBuilder, Transition, build_rows};

/// The buffers of a row call, which hold other numbers before each.
pub struct Judge {
    segments: Vec<u32>,
    masks: Vec<u64>,
    distinct: Vec<u64>,
    ascii: Vec<u16>,
    wide: Vec<u32>,
    escape: Vec<u32>,
}

impl Judge {
    pub fn new(lent: Lent) -> Judge {
        Judge {
            segments: vec![0; lent.segments],
            masks: vec![0; lent.masks],
            distinct: vec![0; lent.distinct],
            ascii: vec![0; lent.ascii],
            wide: vec![0; lent.wide],
            escape: vec![0; lent.escape],
        }
    }

    /// The call gives these rows, or the refusal.
    pub fn held(
        &mut self,
        list: &[u8],
        (targets, continuations): (&[u16], &[u32]),
        expected: Result<(&Expected, &Rows), Refusal>,
    ) {
        let Judge { segments, masks, distinct, ascii, wide, escape } = self;
        segments.fill(0xA5A5_A5A5);
        masks.fill(0xA5A5_A5A5_A5A5_A5A5);
        distinct.fill(0xA5A5_A5A5_A5A5_A5A5);
        ascii.fill(0xA5A5);
        wide.fill(0xA5A5_A5A5);
        escape.fill(0xA5A5_A5A5);
        let lent = RowBuffers { segments, masks, distinct, ascii, wide, escape };
        let answer = build_rows(list, targets, continuations, lent);
        let told = || {
            let front = &list[..list.len().min(400)];
            format!("{} bytes {front:?}, targets {targets:?}, {continuations:?}", list.len())
        };
        let built = expected
            .as_ref()
            .map_err(|&refusal| refusal)
            .map(|(_, rows)| Built { wide: 3 * rows.wide.len(), escape: 3 * rows.escape.len() });
        assert_eq!(answer, built, "{}", told());
        let nothing = Expected::default();
        let (front, rows) = expected.map_or((&nothing, None), |(front, rows)| (front, Some(rows)));
        assert!(is_left(segments, &front.segments), "segments of {}", told());
        assert!(is_left(masks, &front.masks), "masks of {}", told());
        assert!(is_left(distinct, &front.distinct), "distinct masks of {}", told());
        let Some(rows) = rows else {
            assert!(
                is_left(ascii, &[]) && is_left(wide, &[]) && is_left(escape, &[]),
                "{}",
                told()
            );
            return;
        };
        assert!(is_left(ascii, &rows.ascii), "the ascii row of {}", told());
        assert!(is_left(wide, rows.wide.as_flattened()), "the wide row of {}", told());
        assert!(is_left(escape, rows.escape.as_flattened()), "the escape row of {}", told());
    }

    /// The same, by the plain reading.
    fn held_plainly(&mut self, list: &[u8], given: (&[u16], &[u32])) -> Result<(), Refusal> {
        let lent = Lent {
            segments: self.segments.len(),
            masks: self.masks.len(),
            distinct: self.distinct.len(),
            ascii: self.ascii.len(),
            wide: self.wide.len(),
            escape: self.escape.len(),
        };
        let built = build(list, given.0, given.1, lent);
        match &built {
            Ok(rows) => {
                let all = plainly(&plain::read(list).expect("a list whose rows are built"));
                self.held(list, given, Ok((&all, rows)));
            }
            Err(refusal) => self.held(list, given, Err(*refusal)),
        }
        built.map(drop)
    }
}

fn distinct_of(list: &[Transition]) -> usize {
    plain::distinct(&plain::matrix(list)).len()
}

/// Seeded lists with seeded targets and continuations, some of them damaged, some with too few or too
/// many of either.
pub fn seeded() -> usize {
    const LISTS: usize = 8000;
    let mut from = Seeded::new(61);
    let mut judge = Judge::new(Lent { segments: 4100, ascii: 130, wide: 6150, ..Lent::ENOUGH });
    let mut met = [0; 12];
    for _ in 0..LISTS {
        let list = lists::seeded(&mut from);
        let masks = distinct_of(&list);
        let (mut targets, mut continuations) = lists::given(&mut from, masks);
        let mut bytes = lists::bytes(&list);
        match from.below(12) {
            0 => lists::damage(&mut from, &mut bytes),
            1 => targets.push(0),
            2 => continuations.push(0),
            3 => drop((targets.pop(), continuations.pop())),
            _ => {}
        }
        let answer = judge.held_plainly(&bytes, (&targets, &continuations));
        met[answer.err().map_or(0, |refusal| refusal.number as usize)] += 1;
    }
    // Rows were built, lists refused, and targets.
    assert!([0, 1, 3, 11].iter().all(|&number| met[number] > 50), "{met:?}");
    LISTS
}

/// Each buffer one number too short, or empty, or just long enough, all together; a good list and bad
/// ones; as many targets and continuations as there are masks, and not.
pub fn short_buffers() -> usize {
    let good = lists::bytes(&[Transition::from('0'..='9'), Transition::Wildcard]);
    let all = Lent::ENOUGH;
    let mut cases = 0;
    for short in 0..64 {
        for lengths in [|enough: usize| enough - 1, |_| 0] {
            let of = |bit: usize, enough: usize| match short >> bit & 1 {
                0 => enough,
                _ => lengths(enough),
            };
            let mut judge = Judge::new(Lent {
                segments: of(0, all.segments),
                masks: of(1, all.masks),
                distinct: of(2, all.distinct),
                ascii: of(3, all.ascii),
                wide: of(4, all.wide),
                escape: of(5, all.escape),
            });
            for list in [&good[..], &good[..13], &[6, 0, 0], &[3, 8, 0, 1, 0, 0, 0, 0, 0, 0, 0]] {
                for (targets, continuations) in [(2, 2), (1, 2), (2, 3), (0, 0)] {
                    let targets = vec![7; targets];
                    let continuations = vec![5; continuations];
                    let answer = judge.held_plainly(list, (&targets, &continuations));
                    let whole = short == 0 && list == good && targets.len() == continuations.len();
                    assert_eq!(answer.is_ok(), whole && targets.len() == 2);
                    cases += 1;
                }
            }
        }
    }
    cases
}

/// Where a row of ranges leads, asked at one point after another.
struct Walk<'a> {
    row: &'a [[u32; 3]],
    other: u32,
}

impl Walk<'_> {
    fn at(&mut self, point: u32) -> u32 {
        while self.row.first().is_some_and(|&[_, high, _]| high < point) {
            self.row = &self.row[1..];
        }
        match self.row.first() {
            Some(&[low, _, goal]) if low <= point => goal,
            _ => self.other,
        }
    }
}

/// Two hundred builds: at every code point the target and the continuation that its mask was given,
/// told by the records.
pub fn every_point() -> usize {
    const BUILDS: usize = 200;
    let mut from = Seeded::new(62);
    let mut builder = RowBuilder::new();
    for build in 0..BUILDS {
        let list = match build {
            0 => lists::crowded(&mut from, 1024),
            1..=4 => loop {
                let list = lists::seeded(&mut from);
                if (65..=256).contains(&list.len()) {
                    break list;
                }
            },
            _ => loop {
                let list = lists::seeded(&mut from);
                if list.len() < 8 {
                    break list;
                }
            },
        };
        let bytes = lists::bytes(&list);
        let masks = builder.distinct_masks(&bytes).expect("a list within the limits");
        let masks: Vec<Vec<u64>> = masks.map(<[u64]>::to_vec).collect();
        let (targets, continuations) = lists::given(&mut from, masks.len());
        let rows =
            builder.build(&bytes, &targets, &continuations).expect("a list within the limits");
        let mut wide = Walk { row: rows.wide, other: DEAD };
        let mut escape = Walk { row: rows.escape, other: NONE };
        let mut mask = vec![0; list.len().div_ceil(64)];
        for point in 0..=0x10FFFF {
            plain::put_mask(&list, point, &mut mask);
            let (mut target, mut continuation) = (DEAD, NONE);
            if mask.iter().any(|&word| word != 0) {
                let place = masks.iter().position(|other| *other == mask).expect("a known mask");
                target = u32::from(targets[place]);
                continuation = if target == DEAD { NONE } else { continuations[place] };
            }
            let leads = match rows.ascii.get(point as usize) {
                Some(&target) => u32::from(target),
                None => wide.at(point),
            };
            assert_eq!(leads, target, "the target at {point} of {list:?}");
            assert_eq!(escape.at(point), continuation, "the continuation at {point} of {list:?}");
        }
    }
    BUILDS * 0x110000
}
