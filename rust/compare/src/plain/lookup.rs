//! Lookups on any room. NOT-TABLE: a number followed leads outside the room or its section, or a
//! number read is one its field forbids; checked before STATE.

use super::table::{DEAD, NONE};
use super::{read_run, refusal, run};
use lexer_dfa::Refusal;
use std::ops::Range;

type Looked<T> = Result<T, Refusal>;

fn not_table<T>() -> Looked<T> {
    refusal(9, 0)
}

fn no_state<T>() -> Looked<T> {
    refusal(8, 0)
}

/// The sections by their number, which is the number of the room that has their place.
const MODES: usize = 1;
const STATES: usize = 2;
const RUNS: usize = 3;
const ASCII_ROWS: usize = 4;
const WIDE_ROWS: usize = 5;
const ACCEPTS: usize = 6;
const ESCAPE_ROWS: usize = 7;
const CONTINUATIONS: usize = 8;

/// The sections whose records vary in length, in the order of the lists of their places.
const LISTED: [usize; 5] = [RUNS, WIDE_ROWS, ACCEPTS, ESCAPE_ROWS, CONTINUATIONS];

fn number(room: &[u32], place: usize) -> Looked<u32> {
    room.get(place).copied().map_or_else(not_table, Ok)
}

/// Number `k` of the header, which is there whole or not at all.
fn header(room: &[u32], k: usize) -> Looked<usize> {
    if room.len() < 9 { not_table() } else { Ok(room[k] as usize) }
}

/// Where a section has its count and its records. It ends where the next one starts, and the last
/// one with the words.
fn section(room: &[u32], k: usize) -> Looked<Range<usize>> {
    let start = header(room, k)?;
    let end = if k == CONTINUATIONS { 9 + header(room, 0)? } else { header(room, k + 1)? };
    if start < end && end <= room.len() { Ok(start..end) } else { not_table() }
}

/// A part of a section, which must lie in it.
fn part(section: &Range<usize>, from: usize, length: usize) -> Looked<Range<usize>> {
    if from + length <= section.end { Ok(from..from + length) } else { not_table() }
}

/// A record of a section whose records have `size` numbers each; nothing where it has no such one.
fn record(room: &[u32], k: usize, size: usize, index: u32) -> Looked<Option<Range<usize>>> {
    let section = section(room, k)?;
    if index >= room[section.start] {
        return Ok(None);
    }
    part(&section, section.start + 1 + index as usize * size, size).map(Some)
}

/// Where a record of a listed section starts, and its section; nothing where it has no such one.
/// The lists stand behind the words. A count that is read only to find a list needs just a place
/// inside the room, and is read first.
fn listed(room: &[u32], k: usize, index: u32) -> Looked<Option<(usize, Range<usize>)>> {
    let mut list = 9 + header(room, 0)?;
    for earlier in LISTED.into_iter().take_while(|&earlier| earlier != k) {
        list += number(room, header(room, earlier)?)? as usize;
    }
    let section = section(room, k)?;
    if index >= room[section.start] {
        return Ok(None);
    }
    let place = number(room, list + index as usize)? as usize;
    if section.start < place && place < section.end {
        return Ok(Some((place, section)));
    }
    not_table()
}

/// The four numbers of a state: ascii row, wide row, EOF target, accept.
fn state(room: &[u32], state: u16) -> Looked<[u32; 4]> {
    match record(room, STATES, 4, u32::from(state))? {
        Some(at) => Ok([0, 1, 2, 3].map(|field| room[at.start + field])),
        None => no_state(),
    }
}

/// "No start" and the like where the number is NONE.
fn unless_none(number: u32) -> Option<u32> {
    (number != NONE).then_some(number)
}

/// A target is at most 65535.
fn target(number: u32) -> Looked<u16> {
    u16::try_from(number).or_else(|_| not_table())
}

/// A start state or NONE; a value from 65536 to NONE - 1 is a bad field.
fn start(number: u32) -> Looked<Option<u16>> {
    unless_none(number).map(target).transpose()
}

fn modes(room: &[u32]) -> Looked<Vec<Option<u16>>> {
    let section = section(room, MODES)?;
    let at = part(&section, section.start + 1, room[section.start] as usize)?;
    room[at].iter().map(|&mode| start(mode)).collect()
}

pub fn has_compiled_modes(room: &[u32]) -> Looked<bool> {
    Ok(modes(room)?.iter().any(Option::is_some))
}

/// The count is only answered.
pub fn state_count(room: &[u32]) -> Looked<u32> {
    Ok(room[section(room, STATES)?.start])
}

/// Mode flags and counts need one number for each answer; order 9, 7, 10.
fn fits(answers: usize, lent: usize) -> Looked<()> {
    if answers <= lent { Ok(()) } else { refusal(7, 0) }
}

pub fn compiled_mode_flags(room: &[u32], lent: usize) -> Looked<Vec<u32>> {
    let modes = modes(room)?;
    fits(modes.len(), lent)?;
    Ok(modes.into_iter().map(|start| u32::from(start.is_some())).collect())
}

/// One answer for each compiled mode: its start subtracted from the next one's, or from the state
/// count.
pub fn mode_state_counts(room: &[u32], lent: usize) -> Looked<Vec<u32>> {
    let states = state_count(room)?;
    let compiled: Vec<(usize, u32)> = (modes(room)?.into_iter().enumerate())
        .filter_map(|(mode, start)| Some((mode, u32::from(start?))))
        .collect();
    if compiled.iter().any(|&(_, start)| start > states) {
        return not_table();
    }
    fits(compiled.len(), lent)?;
    if let Some(pair) = compiled.windows(2).find(|pair| pair[1].1 < pair[0].1) {
        return refusal(10, pair[1].0);
    }
    let starts: Vec<u32> = compiled.iter().map(|&(_, start)| start).chain([states]).collect();
    Ok(starts.windows(2).map(|pair| pair[1] - pair[0]).collect())
}

/// For a negative mode the section is judged first.
pub fn mode_start(room: &[u32], mode: i32) -> Looked<Option<u16>> {
    section(room, MODES)?;
    let Ok(mode) = u32::try_from(mode) else {
        return Ok(None);
    };
    match record(room, MODES, 1, mode)? {
        Some(at) => start(room[at.start]),
        None => Ok(None),
    }
}

/// A number only answered isn't followed.
pub fn accept(room: &[u32], from: u16) -> Looked<Option<u32>> {
    let [_, _, _, accept] = state(room, from)?;
    Ok(unless_none(accept))
}

pub fn eof_target(room: &[u32], from: u16) -> Looked<u16> {
    let [_, _, eof, _] = state(room, from)?;
    target(eof)
}

/// A symbol past 127 is STATE after the state's row is found.
pub fn ascii_target(room: &[u32], from: u16, symbol: u8) -> Looked<u16> {
    let [row, ..] = state(room, from)?;
    let Some(row) = record(room, ASCII_ROWS, 64, row)? else {
        return not_table();
    };
    let targets: Vec<u16> =
        room[row].iter().flat_map(|word| [*word as u16, (word >> 16) as u16]).collect();
    targets.get(usize::from(symbol)).copied().map_or_else(no_state, Ok)
}

/// The third number of the first range whose high is at least the symbol, if its low is at most the
/// symbol. The row's whole length must lie in its section before it is searched.
fn search(room: &[u32], section: &Range<usize>, length_at: usize, x: u32) -> Looked<Option<u32>> {
    let length = room[part(section, length_at, 1)?.start] as usize;
    let row = part(section, length_at + 1, 3 * length)?;
    let first = room[row].chunks(3).find(|range| range[1] >= x);
    Ok(first.filter(|range| range[0] <= x).map(|range| range[2]))
}

pub fn char_target(room: &[u32], from: u16, symbol: i32) -> Looked<u16> {
    if let 0..=127 = symbol {
        return ascii_target(room, from, symbol as u8);
    }
    let [_, row, ..] = state(room, from)?;
    let Some((place, section)) = listed(room, WIDE_ROWS, row)? else {
        return not_table();
    };
    target(search(room, &section, place, symbol as u32)?.unwrap_or(DEAD))
}

/// STATE is taken from the states; a missing escape row is NOT-TABLE.
fn escape_row(room: &[u32], from: u16) -> Looked<(usize, Range<usize>)> {
    state(room, from)?;
    listed(room, ESCAPE_ROWS, u32::from(from))?.map_or_else(not_table, Ok)
}

/// For ASCII as well.
pub fn char_continuation(room: &[u32], from: u16, symbol: i32) -> Looked<Option<u32>> {
    let (place, section) = escape_row(room, from)?;
    Ok(search(room, &section, place + 1, symbol as u32)?.and_then(unless_none))
}

pub fn eof_continuation(room: &[u32], from: u16) -> Looked<Option<u32>> {
    let (place, _) = escape_row(room, from)?;
    Ok(unless_none(room[place]))
}

/// The words of a state's run, which must lie in its section and be a run.
pub fn ascii_run(room: &[u32], from: u16) -> Looked<&[u32]> {
    state(room, from)?;
    let Some((place, section)) = listed(room, RUNS, u32::from(from))? else {
        return not_table();
    };
    match read_run(&room[..section.end], place) {
        Ok(length) => Ok(&room[place..place + length]),
        Err(_) => not_table(),
    }
}

/// How many bytes the run of a state skips, and whether an exit was found.
pub fn scan_ascii_run(room: &[u32], from: u16, input: &[u8]) -> Looked<Option<(usize, bool)>> {
    Ok(run::scan(ascii_run(room, from)?, input))
}

/// An accept record: rule, consumed-EOF flag, actions of three numbers.
pub type Accept<'a> = (u32, bool, &'a [u32]);

/// Nothing where there is no record of that number.
pub fn accept_record(room: &[u32], index: u32) -> Looked<Option<Accept<'_>>> {
    let Some((place, section)) = listed(room, ACCEPTS, index)? else {
        return Ok(None);
    };
    let fields = part(&section, place, 3)?;
    let actions = part(&section, fields.end, 3 * room[place + 2] as usize)?;
    Ok(Some((room[place], room[place + 1] != 0, &room[actions])))
}

/// A continuation: how many contexts and configs, and the numbers of both.
pub type Continuation<'a> = (u32, &'a [u32], u32, &'a [u32]);

/// Nothing where there is no record of that number. The record must lie in its section, whole.
pub fn continuation_record(room: &[u32], index: u32) -> Looked<Option<Continuation<'_>>> {
    let Some((place, section)) = listed(room, CONTINUATIONS, index)? else {
        return Ok(None);
    };
    let contexts = part(&section, place + 1, 3 * room[place] as usize)?;
    let count = part(&section, contexts.end, 1)?;
    let configs = room[count.start];
    let mut end = count.end;
    for _ in 0..configs {
        let fields = part(&section, end, 6)?;
        end = part(&section, fields.end, 3 * room[end + 5] as usize)?.end;
    }
    Ok(Some((room[place], &room[contexts], configs, &room[count.end..end])))
}
