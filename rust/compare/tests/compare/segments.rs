//! Lists of transitions, their segments and masks, by the plain reading of document 01: the answer or
//! the refusal, and every number of every buffer.

use compare::lists;
use compare::plain::{refusal, transitions as plain};
use compare::seeded::Seeded;
use lexer_dfa::rows::{Counted, INTERVAL_NUMBERS, MASK_WORDS, Masked, SEGMENT_NUMBERS};
use lexer_dfa::{
    Refusal, Transition, char_segments, distinct_masks, read_intervals, read_transitions,
    segment_mask_matrix,
};

/// What the calls are to answer of a list, and to leave in the fronts of the buffers.
#[derive(Default)]
pub struct Expected {
    pub transitions: usize,
    pub ends: Vec<u32>,
    pub segments: Vec<u32>,
    pub masks: Vec<u64>,
    pub distinct: Vec<u64>,
}

impl Expected {
    pub fn counted(&self) -> Counted {
        Counted { transitions: self.transitions, intervals: self.ends.len() / 2 }
    }

    /// As many of the words as make whole masks.
    pub fn masked(&self, masks: &[u64]) -> Masked {
        let words = self.transitions.div_ceil(64);
        Masked { masks: masks.len().checked_div(words).unwrap_or(0), words }
    }
}

/// The list as document 01 reads it.
pub fn plainly(list: &[Transition]) -> Expected {
    let ends = list.iter().flat_map(plain::intervals);
    let matrix = plain::matrix(list);
    Expected {
        transitions: list.len(),
        ends: ends.flat_map(|(low, high)| [low, high + 1]).collect(),
        segments: plain::segments(list).into_iter().flat_map(|(low, high)| [low, high]).collect(),
        distinct: plain::distinct(&matrix).concat(),
        masks: matrix.concat(),
    }
}

/// The front of the buffer, and zeros behind it.
pub fn is_left<T: Copy + PartialEq + Default>(buffer: &[T], front: &[T]) -> bool {
    let (written, behind) = buffer.split_at(front.len().min(buffer.len()));
    written == front && behind.iter().all(|&number| number == T::default())
}

/// Buffers that hold other numbers before each call.
pub struct Judge {
    ends: Vec<u32>,
    segments: Vec<u32>,
    masks: Vec<u64>,
    distinct: Vec<u64>,
}

impl Judge {
    /// Buffers of the lengths that are asked for, or so many numbers more.
    pub fn new(more: usize) -> Judge {
        Judge::of([INTERVAL_NUMBERS, SEGMENT_NUMBERS, MASK_WORDS, MASK_WORDS].map(|n| n + more))
    }

    /// Buffers of these lengths, for intervals, segments, masks and distinct masks.
    pub fn of(lengths: [usize; 4]) -> Judge {
        let [ends, segments, masks, distinct] = lengths;
        Judge {
            ends: vec![0; ends],
            segments: vec![0; segments],
            masks: vec![0; masks],
            distinct: vec![0; distinct],
        }
    }

    fn soil(&mut self) {
        self.ends.fill(0xA5A5_A5A5);
        self.segments.fill(0xA5A5_A5A5);
        self.masks.fill(0xA5A5_A5A5_A5A5_A5A5);
        self.distinct.fill(0xA5A5_A5A5_A5A5_A5A5);
    }

    /// The five calls give what is expected, or its refusal; a buffer that is too short gives ROOM
    /// first.
    pub fn held(&mut self, list: &[u8], expected: Result<&Expected, Refusal>) {
        let told = || format!("{} bytes: {:?}", list.len(), &list[..list.len().min(400)]);
        let nothing = Expected::default();
        assert_eq!(read_transitions(list), expected.map(Expected::counted), "{}", told());
        let room = |enough: bool| if enough { expected } else { ROOM.map(|()| &nothing) };

        self.soil();
        let ends = room(self.ends.len() >= INTERVAL_NUMBERS);
        let answer = read_intervals(list, &mut self.ends);
        assert_eq!(answer, ends.map(Expected::counted), "intervals of {}", told());
        assert!(is_left(&self.ends, &ends.unwrap_or(&nothing).ends), "intervals of {}", told());

        let long = self.segments.len() >= SEGMENT_NUMBERS;
        let segments = room(long);
        let answer = char_segments(list, &mut self.segments);
        assert_eq!(answer, segments.map(|e| e.segments.len() / 2), "segments of {}", told());
        let front = &segments.unwrap_or(&nothing).segments;
        assert!(is_left(&self.segments, front), "segments of {}", told());

        self.soil();
        let long = long && self.masks.len() >= MASK_WORDS;
        let matrix = room(long);
        let answer = segment_mask_matrix(list, &mut self.segments, &mut self.masks);
        assert_eq!(answer, matrix.map(|e| e.masked(&e.masks)), "masks of {}", told());
        let front = matrix.unwrap_or(&nothing);
        assert!(is_left(&self.segments, &front.segments), "segments with masks of {}", told());
        assert!(is_left(&self.masks, &front.masks), "masks of {}", told());

        self.soil();
        let distinct = room(long && self.distinct.len() >= MASK_WORDS);
        let Judge { segments, masks, distinct: once, .. } = self;
        let answer = distinct_masks(list, segments, masks, once);
        assert_eq!(answer, distinct.map(|e| e.masked(&e.distinct)), "distinct masks of {}", told());
        let front = distinct.unwrap_or(&nothing);
        assert!(is_left(segments, &front.segments), "segments with distinct masks of {}", told());
        assert!(is_left(masks, &front.masks), "masks with distinct masks of {}", told());
        assert!(is_left(once, &front.distinct), "distinct masks of {}", told());
    }

    /// The same, by the plain reading. Answers whether the list was accepted.
    fn held_plainly(&mut self, list: &[u8]) -> Result<(), Refusal> {
        let read = plain::read(list);
        match &read {
            Ok(read) => self.held(list, Ok(&plainly(read))),
            Err(refusal) => self.held(list, Err(*refusal)),
        }
        read.map(drop)
    }
}

const ROOM: Result<(), Refusal> = refusal(7, 0);

/// All lists of one byte and of two, and by `read_transitions` alone all of three.
pub fn short_lists() -> usize {
    let mut judge = Judge::new(0);
    let empty = judge.held_plainly(&[]);
    assert_eq!(empty, Ok(()));
    for first in 0..=255 {
        assert!(judge.held_plainly(&[first]).is_err());
    }
    let judged = |list: &[u8]| {
        let read = read_transitions(list).map(|counted| counted.transitions);
        assert_eq!(read, plain::read(list).map(|read| read.len()), "{list:?}");
    };
    for bytes in 0..=0xFFFF_u16 {
        judged(&bytes.to_le_bytes());
    }
    for bytes in 0..=0xFF_FFFF_u32 {
        judged(&bytes.to_le_bytes()[..3]);
    }
    1 + 256 + 0x1_0000 + 0x100_0000
}

/// One record of every tag and of every length up to 26, whole, cut, and with bytes behind it; its
/// bytes from few that tell.
pub fn short_records() -> usize {
    const TAGS: [u8; 9] = [0, 1, 2, 3, 4, 5, 6, 128, 255];
    let mut from = Seeded::new(51);
    let mut cases = 0;
    for tag in TAGS {
        for length in 0..=26_u16 {
            for _ in 0..40 {
                let value = (0..30).map(|_| from.pick(&[0, 0, 0, 1, 2, 255]));
                let record: Vec<u8> =
                    [tag].into_iter().chain(length.to_le_bytes()).chain(value).collect();
                for end in 0..=record.len() {
                    let list = &record[..end];
                    let read = read_transitions(list).map(|counted| counted.intervals);
                    let plainly = plain::read(list);
                    let plainly = plainly.map(|read| lists::interval_count(&read));
                    assert_eq!(read, plainly, "{list:?}");
                    cases += 1;
                }
            }
        }
    }
    cases
}

/// Seeded lists, as they are; those of few transitions cut at every byte and damaged ten times; one in
/// eight with the pairs of a set out of order.
pub fn seeded() -> usize {
    const LISTS: usize = 6000;
    let mut from = Seeded::new(52);
    let mut judge = Judge::new(3);
    let mut met = [0; 12];
    let mut cases = 0;
    let mut judged = |list: &[u8], all: bool| {
        let answer = match all {
            true => judge.held_plainly(list),
            false => {
                let answer = read_transitions(list).map(drop);
                assert_eq!(answer, plain::read(list).map(drop), "{list:?}");
                answer
            }
        };
        met[answer.err().map_or(0, |refusal| refusal.number as usize)] += 1;
        cases += 1;
    };
    for _ in 0..LISTS {
        let mut list = lists::seeded(&mut from);
        if from.below(8) == 0 {
            lists::disorder(&mut from, &mut list);
        }
        let bytes = lists::bytes(&list);
        judged(&bytes, true);
        if list.len() > 8 {
            continue;
        }
        (0..bytes.len()).for_each(|end| judged(&bytes[..end], false));
        for i in 0..10 {
            let mut damaged = bytes.clone();
            (0..from.pick(&[1, 1, 1, 2])).for_each(|_| lists::damage(&mut from, &mut damaged));
            judged(&damaged, i == 0);
        }
    }
    // Accepted, SHORT, FIELD and ORDER were met, each often.
    assert!([0, 1, 3, 10].iter().all(|&number| met[number] > 500), "{met:?}");
    cases
}

/// 255 to 257 transitions and 1,023 to 1,025 intervals, over the limit at every record; the record that
/// goes past a limit is judged whole first.
pub fn limits() -> usize {
    let mut from = Seeded::new(53);
    let mut judge = Judge::new(0);
    let mut cases = 0;
    let limit = |place| refusal(4, place);
    let mut judged = |list: &[u8], expected: Result<(), Refusal>| {
        assert_eq!(judge.held_plainly(list), expected);
        cases += 1;
    };

    // 256 transitions pass; with 257: 4, at the record's offset.
    for record in [&[5, 0, 0][..], &[3, 0, 0], &[4, 0, 0], &[1, 4, 0, 48, 0, 0, 0]] {
        for count in [255, 256] {
            judged(&record.repeat(count), Ok(()));
        }
        for count in [257, 258, 300] {
            judged(&record.repeat(count), limit(256 * record.len()));
        }
    }
    // What else is wrong with the 257th record comes first.
    let full = [5, 0, 0].repeat(256);
    for (record, number) in [
        (&[5][..], 1),
        (&[5, 0], 1),
        (&[5, 1, 0], 1),
        (&[6, 0, 0], 3),
        (&[5, 1, 0, 0], 3),
        (&[3, 8, 0, 1, 0, 0, 0, 0, 0, 0, 0], 10),
        (&[5, 0, 0], 4),
    ] {
        judged(&[&full, record].concat(), refusal(number, 768));
    }

    for _ in 0..12 {
        for count in [1023, 1024] {
            let list = lists::crowded(&mut from, count);
            judged(&lists::bytes(&list), Ok(()));
            // What has no interval may follow.
            let more = [list, vec![Transition::Range(9, 7), Transition::Atom(-1)]].concat();
            judged(&lists::bytes(&more), Ok(()));
        }
        let list = lists::crowded(&mut from, 1025);
        let place = lists::bytes(&list[..list.len() - 1]).len();
        judged(&lists::bytes(&list), limit(place));
        let over = lists::crowded(&mut from, 1024);
        let place = lists::bytes(&over).len();
        let over = [over, vec![Transition::Wildcard]].concat();
        judged(&lists::bytes(&over), limit(place));
    }

    // One set with pairs up to the limit and past it; and as a not-set, whose gaps are one more.
    let apart = |count: i32| (0..count).map(|i| (3 * i + 1, 3 * i + 1)).collect::<Vec<_>>();
    for (count, set, not_set) in [
        (1022, Ok(()), Ok(())),
        (1023, Ok(()), Ok(())),
        (1024, Ok(()), limit(0)),
        (1025, limit(0), limit(0)),
        (8191, limit(0), limit(0)),
    ] {
        judged(&lists::bytes(&[Transition::Set(apart(count))]), set);
        judged(&lists::bytes(&[Transition::NotSet(apart(count))]), not_set);
    }
    // Pairs outside the points are dropped before they are counted, and touching ones are not joined.
    let below: Vec<(i32, i32)> = (0..8191).map(|i| (i - 10_000, i - 10_000)).collect();
    judged(&lists::bytes(&[Transition::Set(below.clone())]), Ok(()));
    judged(&lists::bytes(&[Transition::NotSet(below)]), Ok(()));
    let touching = |count: i32| (0..count).map(|i| (i, i)).collect::<Vec<_>>();
    judged(&lists::bytes(&[Transition::Set(touching(1024))]), Ok(()));
    judged(&lists::bytes(&[Transition::Set(touching(1025))]), limit(0));
    judged(&lists::bytes(&[Transition::NotSet(touching(8191))]), Ok(()));
    cases
}

/// Buffers of every length around what is asked for, and short ones, together; good lists and bad ones.
pub fn short_buffers() -> usize {
    let around = |enough: usize| [0, 1, enough - 1, enough, enough + 1];
    let good = lists::bytes(&[Transition::from('0'..='9'), Transition::Atom(48)]);
    let lists = [&good[..], &[], &good[..5], &[6, 0, 0]];
    let mut cases = 0;
    for ends in around(INTERVAL_NUMBERS) {
        for segments in around(SEGMENT_NUMBERS) {
            for masks in around(MASK_WORDS) {
                for distinct in around(MASK_WORDS) {
                    let mut judge = Judge::of([ends, segments, masks, distinct]);
                    for list in lists {
                        let _ = judge.held_plainly(list);
                        cases += 1;
                    }
                }
            }
        }
    }
    cases
}
