//! Tables to decode: seeded ones with their damaged copies, whole and in part, and broken ones.

use compare::plain::table::{Accept, TAG, Table};
use compare::seeded::Seeded;
use compare::tables::broken::{self, Way};
use compare::tables::{self, build, damage};

/// Seeded tables of every size, and with each some copies that have one damage or more.
pub fn each_seeded(mut visit: impl FnMut(&[u32])) -> usize {
    const TABLES: usize = 40_000;
    let mut from = Seeded::new(8);
    let mut cases = 0;
    for _ in 0..TABLES {
        let (table, copies) = match from.below(200) {
            0 => {
                let length = 8192 - from.pick(&[0, 0, 1, 2, 50]);
                (tables::full(&mut from, length), 12)
            }
            1..=10 => (tables::middle(&mut from), 8),
            _ => (tables::small(&mut from), 3),
        };
        let words = tables::words(&table);
        visit(&words);
        let places = damage::places(&words);
        for _ in 0..copies {
            let mut copy = words.clone();
            for _ in 0..from.pick(&[1, 1, 1, 2, 3]) {
                damage::damage(&mut from, &mut copy, &places);
            }
            // Past the limit the original goes on; see docs/DIFFERENCES.md.
            copy.truncate(8192);
            visit(&copy);
        }
        cases += 1 + copies;
    }
    cases
}

/// Small tables with every part: cut after each word, each bit of each word changed, each word
/// replaced by each telling value, taken out, and put in twice.
pub fn each_word_damaged(mut visit: impl FnMut(&[u32])) -> usize {
    let mut cases = 0;
    let mut visit = |words: &[u32]| {
        visit(words);
        cases += 1;
    };
    for words in telling_tables() {
        for at in 0..words.len() {
            visit(&words[..at]);
            let mut copy = words.clone();
            for bit in 0..32 {
                copy[at] = words[at] ^ 1 << bit;
                visit(&copy);
            }
            for telling in damage::TELLING {
                copy[at] = telling;
                visit(&copy);
            }
            visit(&[&words[..at], &words[at + 1..]].concat());
            visit(&[&words[..at], &words[at..=at], &words[at..]].concat());
        }
    }
    cases
}

/// Small tables that have something in every section, and one that has no states.
pub fn telling_tables() -> Vec<Vec<u32>> {
    let mut from = Seeded::new(9);
    let whole = |table: &Table| {
        let has_actions = |accept: &Accept| !accept.actions.is_empty();
        !table.modes.is_empty()
            && table.runs.iter().any(|run| run.len() == 3)
            && table.wide_rows.iter().any(|row| row.len() > 1)
            && table.accepts.iter().any(has_actions)
            && table.escape_rows.iter().any(|row| row.ranges.len() > 1)
            && table.continuations.iter().any(|continuation| {
                continuation.contexts.len() > 1 && continuation.configs.len() > 1
            })
    };
    let mut all = vec![vec![TAG, 1, u32::MAX, 0, 0, 0, 2, 0, 0, 1, 9, 7, 0, 0, 1, 0, 0]];
    while all.len() < 12 {
        let states = 1 + from.below(3);
        let table = build::table(&mut from, states);
        let words = tables::words(&table);
        if whole(&table) && words.len() < 260 {
            all.push(words);
        }
    }
    all
}

/// Each index rule broken alone, in every way, and every two of different rules together; and the
/// number of the first, with the item at which it is broken.
pub fn each_broken(mut visit: impl FnMut(&[u32], usize, usize)) -> usize {
    const TABLES: usize = 20;
    let mut from = Seeded::new(10);
    let mut cases = 0;
    for _ in 0..TABLES {
        for first in broken::WAYS {
            let states = 1 + from.below(3);
            let table = build::table(&mut from, states);
            let mut alone = table.clone();
            let item = first.go(&mut from, &mut alone);
            visit(&tables::words(&alone), first.rule, item);
            cases += 1;
            for second in higher(first.rule) {
                let mut both = table.clone();
                second.go(&mut from, &mut both);
                let item = first.go(&mut from, &mut both);
                visit(&tables::words(&both), first.rule, item);
                cases += 1;
            }
        }
    }
    cases
}

/// The ways to break a rule above that one.
fn higher(rule: usize) -> impl Iterator<Item = Way> {
    broken::WAYS.into_iter().filter(move |way| way.rule > rule)
}

/// The first, a middle and the last of so many items: each alone, each two of them, and all three.
fn telling_items(items: usize) -> Vec<Vec<usize>> {
    let [first, middle, last] = [0, items / 2, items - 1];
    let mut all = vec![vec![first]];
    if items > 1 {
        all.extend([vec![last], vec![first, last]]);
    }
    if items > 2 {
        all.extend([vec![middle], vec![first, middle], vec![middle, last]]);
        all.push(vec![first, middle, last]);
    }
    all
}

/// The same of tables that have three items or more for every rule, at the first, a middle and the last
/// of them, and at more than one.
pub fn each_broken_item(mut visit: impl FnMut(&[u32], usize, usize)) -> usize {
    const TABLES: usize = 10;
    let mut from = Seeded::new(12);
    let mut cases = 0;
    let mut visit = |table: &Table, rule, items: &[usize]| {
        visit(&tables::words(table), rule, items[0]);
        cases += 1;
    };
    for _ in 0..TABLES {
        let table = tables::many_sided(&mut from, 3);
        for first in broken::WAYS {
            for items in telling_items(first.items(&table)) {
                let mut alone = table.clone();
                first.go_at(&items, &mut from, &mut alone);
                visit(&alone, first.rule, &items);
                for second in higher(first.rule) {
                    let mut both = table.clone();
                    let others = telling_items(second.items(&both));
                    second.go_at(&others[from.below(others.len())], &mut from, &mut both);
                    first.go_at(&items, &mut from, &mut both);
                    visit(&both, first.rule, &items);
                }
            }
        }
    }
    cases
}

/// Each rule broken in tables that have as many items as can be, at the first, a middle and the last.
pub fn each_broken_crowd(mut visit: impl FnMut(&[u32], usize, usize)) -> usize {
    let mut from = Seeded::new(13);
    let mut met = [0; 10];
    for mut table in tables::crowded() {
        // What breaks a rule may take words.
        table.modes.truncate(8170);
        table.wide_rows.truncate(8170);
        table.ascii_rows.truncate(126);
        table.continuations.truncate(4080);
        for way in broken::WAYS {
            let items = way.items(&table);
            if items < 100 {
                continue;
            }
            for items in telling_items(items) {
                let mut copy = table.clone();
                way.go_at(&items, &mut from, &mut copy);
                let words = tables::words(&copy);
                if words.len() <= 8192 {
                    visit(&words, way.rule, items[0]);
                    met[way.rule] += 1;
                }
            }
        }
    }
    assert!([1, 2, 4, 5, 6, 8, 9].iter().all(|&rule| met[rule] > 0), "{met:?}");
    met.iter().sum()
}

/// Tables of which one section takes all words, whole and with a word too few or too many.
pub fn each_crowded(mut visit: impl FnMut(&[u32])) -> usize {
    let all = tables::crowded();
    for table in &all {
        let mut words = tables::words(table);
        visit(&words);
        visit(&words[..words.len() - 1]);
        words.push(0);
        words.truncate(8192);
        visit(&words);
    }
    3 * all.len()
}
