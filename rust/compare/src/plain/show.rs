//! The page that `tableshow` prints: the table's line, a line for each mode, and what each state
//! does; or the one line of a refusal. And the line that `tableread` prints.

use super::read;
use super::table::{DEAD, ESCAPE, NONE, Range, Table};
use super::{decode, refusal};
use lexer_dfa::{Decoded, ROOM_NUMBERS, Refusal};

/// What is printed for an input of these bytes.
pub fn shown(bytes: &[u8]) -> String {
    match words_of(bytes).and_then(|words| Ok((accepted(&words)?, words.len()))) {
        Ok((table, words)) => page(&table, words),
        Err(refusal) => refusal_line(refusal),
    }
}

/// "prints `ok MODES STATES WORDS`" of document 01, or "`no NUMBER PLACE ITEM`" of document 02.
pub fn read(bytes: &[u8]) -> String {
    match words_of(bytes).and_then(|words| decode(&words, ROOM_NUMBERS)) {
        Ok(Decoded { modes, states, words }) => format!("ok {modes} {states} {words}\n"),
        Err(Refusal { number, place, item }) => format!("no {number} {place} {item}\n"),
    }
}

/// Words stand with the least byte first. 1 to 3 spare bytes are SHORT at the whole words, after
/// LIMIT and before decoding.
fn words_of(bytes: &[u8]) -> Result<Vec<u32>, Refusal> {
    let (whole, spare) = bytes.as_chunks();
    if whole.len() > 8192 {
        return refusal(4, 8192);
    }
    if !spare.is_empty() {
        return refusal(1, whole.len());
    }
    Ok(whole.iter().map(|&word| u32::from_le_bytes(word)).collect())
}

fn accepted(words: &[u32]) -> Result<Table, Refusal> {
    decode(words, ROOM_NUMBERS)?;
    Ok(read::read(words)?.table)
}

fn refusal_line(Refusal { number, place, .. }: Refusal) -> String {
    let reason = match (number, place) {
        (1, _) => "SHORT, the words end inside a field or record",
        (2, _) => "TAG, the first word is not the tag of a table",
        (3, _) => "FIELD, the word here is one that its field forbids",
        (4, _) => "LIMIT, there are more than 8,192 words",
        (5, _) => "LEFT, words remain behind the last section",
        (6, 1) => "INDEX, a mode starts at what is no state",
        (6, 2) => "INDEX, a state names a row, a target or an accept that is not there",
        (6, 3) => "INDEX, there are not as many runs as states",
        (6, 4) => "INDEX, a run is not that of its state's row",
        (6, 5) => "INDEX, an ascii row has a target that is not there",
        (6, 6) => "INDEX, a wide row is out of order, or has a target that is not there",
        (6, 7) => "INDEX, there are not as many escape rows as states",
        (6, 8) => "INDEX, an escape row is out of order, or names a continuation that is not there",
        (6, 9) => "INDEX, a context or a config refers to a context that it must not",
        _ => unreachable!("decoding does not refuse with {number} at {place}"),
    };
    format!("refused: {number} at {place}: {reason}\n")
}

/// The page of a table that has that many words.
pub fn page(table: &Table, words: usize) -> String {
    let (modes, states) = (table.modes.len(), table.states.len());
    let mut page = format!("table: modes {modes}, states {states}, words {words}\n");
    for (mode, &start) in table.modes.iter().enumerate() {
        page += &match start {
            NONE => format!("mode {mode} is not compiled\n"),
            _ => format!("mode {mode} starts at state {start}\n"),
        };
    }
    for state in 0..states {
        page += &format!("\nstate {state}{}\n", accept(table, state));
        for (label, text) in lines(table, state) {
            page += &format!("  {label:<7}  {text}\n");
        }
    }
    page
}

fn accept(table: &Table, state: usize) -> String {
    let number = table.states[state].accept;
    if number == NONE {
        return ", no accept".to_string();
    }
    let accept = &table.accepts[number as usize];
    let end = if accept.consumed_eof == 0 { "" } else { ", the end consumed" };
    let actions = match accept.actions.len() {
        0 => String::new(),
        count => format!(", actions {count}"),
    };
    format!(": accept {number}, rule {}{end}{actions}", accept.rule)
}

/// Each line's label and text, of which a row has more lines. Only the ascii row is always there.
fn lines(table: &Table, number: usize) -> Vec<(&'static str, String)> {
    let state = &table.states[number];
    let escapes = &table.escape_rows[number];
    let ascii = match ascii_items(&table.ascii_rows[state.ascii_row as usize]) {
        items if items.is_empty() => "none".to_string(),
        items => three_to_a_line(&items),
    };
    let end_target = (state.eof_target != DEAD).then(|| target(state.eof_target));
    let end_continuation = (escapes.eof != NONE).then(|| continuation(escapes.eof));
    let all = [
        ("loops", run(&table.runs[number])),
        ("ascii", Some(ascii)),
        ("wide", wide(table, number)),
        ("escapes", range_items(&escapes.ranges, continuation)),
        ("at end", end_target),
        ("at end", end_continuation),
    ];
    all.into_iter().filter_map(|(label, text)| Some((label, text?))).collect()
}

fn run(words: &[u32]) -> Option<String> {
    let bytes: Vec<u8> = words.iter().flat_map(|word| word.to_le_bytes()).collect();
    let point = |&byte: &u8| point(byte.into());
    match bytes[0] {
        0 => None,
        1 => Some("on every symbol".to_string()),
        kind @ 2..=4 => {
            let exits: Vec<String> = bytes[1..usize::from(kind)].iter().map(point).collect();
            Some(format!("until {}", exits.join(" or ")))
        }
        _ => {
            let used = &bytes[4..][..2 * usize::from(bytes[1])];
            let ranges = used.chunks(2).map(|pair| range(pair[0].into(), pair[1].into()));
            Some(format!("on {}", ranges.collect::<Vec<_>>().join(", ")))
        }
    }
}

/// Neighbours that lead to the same target stand together; what is dead is left out.
fn ascii_items(row: &[u16]) -> Vec<String> {
    let edges: Vec<(u32, u32)> = (0..).zip(row.iter().map(|&to| to.into())).collect();
    let alike = edges.chunk_by(|one, next| one.1 == next.1);
    alike
        .filter(|edges| edges[0].1 != DEAD)
        .map(|edges| item(edges[0].0, edges[edges.len() - 1].0, target(edges[0].1)))
        .collect()
}

/// A row that a state before has too is not shown again.
fn wide(table: &Table, number: usize) -> Option<String> {
    let row = table.states[number].wide_row;
    let items = range_items(&table.wide_rows[row as usize], target)?;
    match table.states[..number].iter().position(|state| state.wide_row == row) {
        Some(first) => Some(format!("as state {first}")),
        None => Some(items),
    }
}

fn range_items(ranges: &[Range], lead: fn(u32) -> String) -> Option<String> {
    let items: Vec<String> =
        ranges.iter().map(|range| item(range.low, range.high, lead(range.to))).collect();
    (!items.is_empty()).then(|| three_to_a_line(&items))
}

fn three_to_a_line(items: &[String]) -> String {
    let lines: Vec<String> = items.chunks(3).map(|three| three.join("  ")).collect();
    lines.join("\n           ")
}

fn item(low: u32, high: u32, lead: String) -> String {
    format!("{} {lead}", range(low, high))
}

fn target(target: u32) -> String {
    match target {
        ESCAPE => "-> escape".to_string(),
        DEAD => "-> dead".to_string(),
        _ => format!("-> {target}"),
    }
}

fn continuation(number: u32) -> String {
    format!("-> continuation {number}")
}

fn range(low: u32, high: u32) -> String {
    if low == high { point(low) } else { format!("{}..{}", point(low), point(high)) }
}

/// A symbol of ASCII in quotes where it can be seen, and another point by its number, of four
/// digits or more. A number of seven gets a zero before it: specs/Names has no `front` of three.
fn point(point: u32) -> String {
    match point {
        9 => "\\t".to_string(),
        10 => "\\n".to_string(),
        13 => "\\r".to_string(),
        32 => "space".to_string(),
        33..=126 => format!("'{}'", char::from(point as u8)),
        0..=127 => format!("0x{point:02X}"),
        0x100_0000..=0xFFF_FFFF => format!("U+{point:08X}"),
        _ => format!("U+{point:04X}"),
    }
}
