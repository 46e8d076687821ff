//! Tables to decode: whole, damaged, and with each index rule broken. The original has no numbers,
//! places and items of refusals, so these are the plain reading's; the original accepts the same
//! tables.

use super::{check, put_words};
use crate::plain::table::{TAG, Table};
use crate::seeded::Seeded;
use crate::tables::{broken, build, damage, words};
use crate::{original, plain, samples};
use lexer_dfa::{ROOM_NUMBERS, Refusal};

pub fn records(out: &mut Vec<u8>) {
    for words in tables() {
        record(&words, out);
    }
}

fn tables() -> Vec<Vec<u32>> {
    const SHORT: usize = 60;
    let mut from = Seeded::new(11);
    let empty = [TAG, 0, 0, 0, 0, 0, 0, 0, 0, 0];
    let mut all: Vec<Vec<u32>> = [9, 8, 10, 0].map(|length| empty[..length].to_vec()).to_vec();
    all.push(words(&samples::one_state()));
    // Without states tables are short, since they need no row.
    while all.len() < SHORT {
        let mut table = words(&build::table(&mut from, 0));
        let places = damage::places(&table);
        if table.len() > 12 && table.len() < 60 {
            if from.below(2) == 0 {
                damage::damage(&mut from, &mut table, &places);
            }
            all.push(table);
        }
    }
    // The first of these is whole.
    all.push(words(&short_table(&mut from, |_| true)));
    // Of each rule the first item that breaks it; those behind that one break it too.
    for (rule, first) in (1..).zip([2, 1, 0, 2, 1, 3, 0, 1, 2]) {
        let mut ways = broken::WAYS.into_iter();
        let way = ways.find(|way| way.rule == rule).expect("a way to break each rule");
        let mut table = short_table(&mut from, |table| way.items(table) > first);
        let items: Vec<usize> = (first..way.items(&table)).collect();
        way.go_at(&items, &mut from, &mut table);
        all.push(words(&table));
    }
    all
}

/// Of three states and at most two ascii rows, so that a byte can count its words.
fn short_table(from: &mut Seeded, fits: impl Fn(&Table) -> bool) -> Table {
    const MOST: usize = 80;
    loop {
        let table = build::table(from, 3);
        let rows = table.ascii_rows.len();
        if rows <= 2 && words(&table).len() <= MOST + 64 * rows && fits(&table) {
            return table;
        }
    }
}

fn record(words: &[u32], out: &mut Vec<u8>) {
    let answer = plain::decode(words, ROOM_NUMBERS);
    assert_eq!(answer.is_ok(), original::decode(words).is_some(), "{words:?}");

    out.push(4);
    out.push(u8::try_from(words.len()).expect("a table of at most 255 words"));
    put_words(words, out);
    let refused = answer.err().unwrap_or(Refusal { number: 0, place: 0, item: 0 });
    out.extend([refused.number as u8, refused.place as u8, refused.item as u8]);
    let (modes, states, length) =
        answer.map_or((0, 0, 0), |decoded| (decoded.modes, decoded.states, decoded.words));
    out.extend([modes as u8, states as u8, length as u8]);
    out.extend(check(&plain::room(words, ROOM_NUMBERS)).to_le_bytes());
}
