//! Rooms to look things up in: those that decoding leaves, and strange ones.

use compare::plain;
use compare::plain::table::NONE;
use compare::seeded::Seeded;
use compare::tables::{self, damage};
use lexer_dfa::ROOM_NUMBERS;

/// The numbers of the room that decoding leaves for these words, without the zeros behind them.
pub fn used(words: &[u32]) -> Vec<u32> {
    let mut room = plain::room(words, ROOM_NUMBERS);
    let last = room.iter().rposition(|&number| number != 0);
    room.truncate(last.map_or(0, |last| last + 1));
    room
}

/// A million strange rooms and more: random numbers; good rooms with one number changed, or two;
/// good rooms cut. A cut room is a part of the whole one, so that a read behind it would be seen.
pub fn each_strange(mut visit: impl FnMut(&mut Seeded, &[u32])) -> usize {
    const TABLES: usize = 20_000;
    let mut from = Seeded::new(21);
    let mut cases = 0;
    for _ in 0..TABLES {
        let table = match from.below(40) {
            0 => tables::middle(&mut from),
            _ => tables::small(&mut from),
        };
        let words = tables::words(&table);
        let good = used(&words);
        let places = telling_places(&words, &good);
        visit(&mut from, &good);
        for _ in 0..32 {
            let mut room = good.clone();
            for _ in 0..from.pick(&[1, 1, 1, 1, 2]) {
                change(&mut from, &mut room, &places);
            }
            visit(&mut from, &room);
        }
        for _ in 0..12 {
            let near = from.pick(&places) + from.pick(&[0, 1, 2, 3, 4, 64, 65]);
            let any = from.below(good.len() + 1);
            let cut = from.pick(&[near.min(good.len()), any]);
            visit(&mut from, &good[..cut]);
        }
        for _ in 0..8 {
            let room = random(&mut from);
            visit(&mut from, &room);
        }
        cases += 53;
    }
    cases
}

/// Rooms that decoding leaves and others that come near to them, at their full length: one number
/// changed, or two, among those that are used or behind them; cut; lengthened by zeros, which leaves
/// a table one, or by another number; one table's numbers up to a place and another's from there on;
/// random numbers.
pub fn each_nearly_left(mut visit: impl FnMut(&mut Seeded, &[u32])) -> usize {
    const TABLES: usize = 8_000;
    let mut from = Seeded::new(22);
    let mut cases = 0;
    let mut visit = |from: &mut Seeded, room: &[u32]| {
        visit(from, room);
        cases += 1;
    };
    let mut other = Vec::new();
    for _ in 0..TABLES {
        let table = match from.below(40) {
            0 => tables::middle(&mut from),
            _ => tables::small(&mut from),
        };
        let words = tables::words(&table);
        let good = used(&words);
        let places = telling_places(&words, &good);
        let mut room = good.clone();
        room.resize(ROOM_NUMBERS, 0);
        visit(&mut from, &room);
        for _ in 0..20 {
            for _ in 0..from.pick(&[1, 1, 1, 1, 2]) {
                change(&mut from, &mut room[..good.len()], &places);
            }
            visit(&mut from, &room);
            room[..good.len()].copy_from_slice(&good);
        }
        for _ in 0..2 {
            let any = good.len() + from.below(ROOM_NUMBERS - good.len());
            let behind = from.pick(&[good.len(), any, ROOM_NUMBERS - 1]);
            room[behind] = from.pick(&damage::TELLING);
            visit(&mut from, &room);
            room[behind] = 0;
        }

        let cut = from.below(ROOM_NUMBERS);
        visit(&mut from, &room[..cut]);
        visit(&mut from, &room[..ROOM_NUMBERS - 1]);
        room.resize(ROOM_NUMBERS + 1 + from.below(40), 0);
        visit(&mut from, &room);
        *room.last_mut().expect("numbers") = from.pick(&damage::TELLING);
        visit(&mut from, &room);

        let at = from.pick(&places).min(other.len()).min(good.len());
        let mut mixed = [&good[..at], &other[at..]].concat();
        mixed.resize(ROOM_NUMBERS, 0);
        visit(&mut from, &mixed);
        let mut strange = random(&mut from);
        strange.resize(from.pick(&[strange.len(), ROOM_NUMBERS, ROOM_NUMBERS]), 0);
        visit(&mut from, &strange);
        other = good;
    }
    cases
}

/// Places whose numbers are followed: the header, the sections' counts, the states, the records of
/// variable length, and the lists of their places.
pub fn telling_places(words: &[u32], good: &[u32]) -> Vec<usize> {
    let lists = 9 + words.len();
    let states = good[2] as usize + 1..good[3] as usize;
    let counts = damage::places(words).into_iter().map(|word| word + 9);
    (0..9).chain(0..9).chain(counts).chain(states).chain(lists..good.len()).collect()
}

/// Changes one number, at a telling place or one that follows it as often as at any place: by one,
/// by a bit, to the place of something else, to an end, or to a value at a field's bound.
pub fn change(from: &mut Seeded, room: &mut [u32], places: &[usize]) {
    let near = from.pick(places) + from.pick(&[0, 0, 0, 1, 2, 3]);
    let any = from.below(room.len());
    let at = from.pick(&[near, near, any]).min(room.len() - 1);
    let length = room.len() as u32;
    let some = [room[from.below(room.len())], from.below(room.len()) as u32];
    let end = length + from.pick(&[0, 1, 2]) - 1;
    room[at] = match from.below(8) {
        0 => room[at].wrapping_add(1),
        1 => room[at].wrapping_sub(1),
        2 => room[at] ^ 1 << from.below(32),
        3 => some[0],
        4 => some[1],
        5 => end,
        6 => from.pick(&damage::TELLING),
        _ => from.pick(&[0, 1, 2, 3, 4, 5, length / 3, NONE, NONE / 3, NONE / 4, NONE / 64]),
    };
}

/// Random numbers, mostly small: places of a header that ascends as often as of any header.
fn random(from: &mut Seeded) -> Vec<u32> {
    let length = from.pick(&[0, 1, 8, 9, 10, 20, 40, 150]) + from.below(12);
    let most = from.pick(&[3, 12, length + 2]);
    let mut room: Vec<u32> = (0..length)
        .map(|_| match from.below(12) {
            0 => from.word(),
            1 => NONE,
            2 => 65535,
            _ => from.below(most) as u32,
        })
        .collect();
    if length > 9 && from.below(4) > 0 {
        let mut header: Vec<u32> = (0..8).map(|_| from.below(length) as u32).collect();
        header.sort_unstable();
        room[1..9].copy_from_slice(&header);
        room[0] = from.below(length - 8) as u32;
    }
    room
}
