//! The programs `tableshow` and `tableread`, byte for byte, by a plain rendering of the same page or line.

use compare::plain::show::{page, read, shown};
use compare::plain::table::{Continuation, DEAD, EscapeRow, NONE, Range, Table};
use compare::samples::{one_state, ply_book};
use compare::seeded::Seeded;
use compare::tables::{self, broken, build, damage};
use std::io::{ErrorKind, Write};
use std::process::{Command, Stdio};

/// Where `rt run` leaves a program.
pub fn program(name: &str) -> String {
    format!("{}/../../crates/{name}/out/{name}", env!("CARGO_MANIFEST_DIR"))
}

/// What the program prints for an input.
fn printed(name: &str, input: &[u8]) -> String {
    let mut program = Command::new(program(name))
        .stdin(Stdio::piped())
        .stdout(Stdio::piped())
        .spawn()
        .expect("the program can be run");
    // It reads all that it takes before it prints; of a long input it does not take the end.
    match program.stdin.take().expect("an input").write_all(input) {
        Err(error) if error.kind() != ErrorKind::BrokenPipe => panic!("{error}"),
        _ => {}
    }
    let output = program.wait_with_output().expect("the program ends");
    assert!(output.status.success(), "{name} ends with {}", output.status);
    String::from_utf8(output.stdout).expect("what is printed is a text")
}

fn bytes(words: &[u32]) -> Vec<u8> {
    words.iter().flat_map(|word| word.to_le_bytes()).collect()
}

/// The first line that differs is told, as a page may have thousands.
fn judged(name: &str, input: &[u8], expected: &str) {
    let printed = printed(name, input);
    if printed == expected {
        return;
    }
    let pairs = printed.lines().zip(expected.lines());
    let line = pairs.take_while(|(ours, plain)| ours == plain).count();
    let (ours, plain) = (printed.lines().nth(line), expected.lines().nth(line));
    panic!("line {}: {name} prints {ours:?}, the plain rendering {plain:?}", line + 1);
}

/// Each of these texts must have been on some page.
fn all_seen(pages: &[String], texts: &[&str]) {
    for text in texts {
        assert!(pages.iter().any(|page| page.contains(text)), "no page has {text:?}");
    }
}

/// Seeded tables of every size, crowded ones, those of samples/, and the longest rows.
pub fn seeded() -> usize {
    const TABLES: usize = 500;
    let mut from = Seeded::new(41);
    let mut all: Vec<Table> = (0..TABLES)
        .map(|_| match from.below(50) {
            0 => tables::full(&mut from, 8192),
            1..=10 => tables::middle(&mut from),
            _ => tables::small(&mut from),
        })
        .collect();
    all.extend(tables::crowded());
    all.extend([one_state(), ply_book(), long_wide_row(), long_escape_row()]);

    let mut pages = Vec::new();
    for table in &all {
        let words = tables::words(table);
        let expected = page(table, words.len());
        judged("tableshow", &bytes(&words), &expected);
        pages.push(expected);
    }
    all_seen(&pages, &TELLING);
    let odd_flag = |table: &Table| {
        let mut accepts =
            table.states.iter().filter_map(|it| table.accepts.get(it.accept as usize));
        accepts.any(|accept| accept.consumed_eof > 1)
    };
    assert!(all.iter().any(odd_flag), "no state has a flag other than 0 and 1");
    all.len()
}

/// Of every kind of line, and of every kind of what stands in it.
const TELLING: [&str; 28] = [
    " starts at state ",
    " is not compiled\n",
    ", no accept\n",
    ", the end consumed\n",
    ", the end consumed, actions ",
    ", actions 2\n",
    "  loops    on every symbol\n",
    "  loops    until '",
    "  loops    until 0x",
    "' or '",
    "' or 0x",
    "  loops    on '",
    "  loops    on 0x",
    "', '",
    "  ascii    none\n",
    "  ascii    0x00..",
    "  ascii    \\t",
    "space -> ",
    "0x7F -> ",
    "  wide     0x00",
    "  wide     U+",
    "  wide     as state ",
    "U+110000",
    " -> dead  ",
    " -> escape  ",
    "  escapes  ",
    "  at end   -> escape\n",
    "  at end   -> continuation ",
];

/// A state whose wide row takes nearly all 8,192 words, of points that have eight digits: its page
/// must not be cut off.
fn long_wide_row() -> Table {
    Table { wide_rows: vec![long_row(2702, DEAD)], ..one_state() }
}

/// The same of an escape row.
fn long_escape_row() -> Table {
    let continuation = Continuation { contexts: Vec::new(), configs: Vec::new() };
    Table {
        escape_rows: vec![EscapeRow { eof: NONE, ranges: long_row(2702, 0) }],
        continuations: vec![continuation],
        ..one_state()
    }
}

fn long_row(ranges: u32, to: u32) -> Vec<Range> {
    let low = |number: u32| NONE - 2 * (ranges - number);
    (0..ranges).map(|number| Range { low: low(number), high: low(number) + 1, to }).collect()
}

/// Tables with a damage or more, tables that break a rule, inputs with spare bytes, and inputs of
/// too many words.
fn damaged_inputs() -> Vec<Vec<u8>> {
    let mut from = Seeded::new(42);
    let mut inputs = vec![Vec::new(), vec![0; 4]];
    for _ in 0..300 {
        let words = tables::words(&tables::small(&mut from));
        let places = damage::places(&words);
        let mut copy = words.clone();
        for _ in 0..from.pick(&[1, 1, 1, 2, 3]) {
            damage::damage(&mut from, &mut copy, &places);
        }
        inputs.push(bytes(&copy));
    }
    for way in broken::WAYS.repeat(3) {
        let states = 1 + from.below(3);
        let mut table = build::table(&mut from, states);
        way.go(&mut from, &mut table);
        inputs.push(bytes(&tables::words(&table)));
    }
    for spare in [1, 2, 3].repeat(20) {
        let mut input = bytes(&tables::words(&tables::small(&mut from)));
        input.truncate(input.len() - from.pick(&[0, 4]));
        input.extend(vec![from.word() as u8; spare]);
        inputs.push(input);
    }
    // At the limit, with spare bytes beside it, and longer than what is read.
    let full = bytes(&tables::words(&tables::full(&mut from, 8192)));
    for length in [32763, 32764, 32767, 32768, 32769, 32771, 32772, 32773, 65536, 65540, 200_000] {
        let mut input = full.clone();
        input.resize(length, 0);
        inputs.push(input);
    }
    inputs
}

/// Pages of these; every refusal that decoding gives is among them.
pub fn damaged() -> usize {
    let inputs = damaged_inputs();
    let mut lines = Vec::new();
    for input in &inputs {
        let expected = shown(input);
        judged("tableshow", input, &expected);
        lines.push(expected);
    }
    let refused = |number| format!("refused: {number} at ");
    let rules = (1..=9).map(|rule| format!("refused: 6 at {rule}: INDEX"));
    let refusals: Vec<String> = (1..=6).map(refused).chain(rules).collect();
    all_seen(&lines, &refusals.iter().map(String::as_str).collect::<Vec<_>>());
    inputs.len()
}

/// The line of `tableread` for each of these, and for tables that break a rule at a later item.
pub fn lines() -> usize {
    let mut from = Seeded::new(43);
    let mut inputs = damaged_inputs();
    for way in broken::WAYS {
        let mut table = tables::many_sided(&mut from, 3);
        let items: Vec<usize> = (0..way.items(&table)).skip(2).collect();
        way.go_at(&items, &mut from, &mut table);
        inputs.push(bytes(&tables::words(&table)));
    }
    let mut lines = Vec::new();
    for input in &inputs {
        let expected = read(input);
        judged("tableread", input, &expected);
        lines.push(expected);
    }
    let refusals = (1..=5).map(|number| format!("no {number} "));
    let whole = [3, 7].map(|rule| format!("no 6 {rule} 0\n"));
    let items = [1, 2, 4, 5, 6, 8, 9].map(|rule| format!("no 6 {rule} 2\n"));
    let texts: Vec<String> =
        refusals.chain(whole).chain(items).chain(["ok ".to_string()]).collect();
    all_seen(&lines, &texts.iter().map(String::as_str).collect::<Vec<_>>());
    inputs.len()
}
