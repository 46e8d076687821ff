//! Lookups on any room, by the plain reading of document 01.

use crate::rooms;
use compare::plain::lookup as plain;
use compare::seeded::Seeded;
use lexer_dfa::{Refusal, lookup as ours};

/// Every lookup on strange rooms: good answers, and NOT-TABLE exactly as the definition says.
pub fn strange() -> usize {
    rooms::each_strange(|from, room| {
        modes(from, room);
        for _ in 0..4 {
            let state = from.pick(&[0, 0, 1, 2, 3, 5, 65535]);
            let symbols = [from.below(256), from.below(1 << 16), from.word() as usize];
            targets(room, state, symbols.map(|symbol| symbol as i32));
            scans(room, state);
        }
        for _ in 0..3 {
            let number = from.pick(&[0, 0, 1, 2, 3, 5, u32::MAX]);
            records(room, number);
        }
    })
}

fn told(room: &[u32]) -> String {
    format!("room of {} numbers: {:?}", room.len(), &room[..room.len().min(400)])
}

/// Asks both sides the same.
macro_rules! same {
    ($room:expr, $call:ident($($argument:expr),*)) => {
        let answer = ours::$call($room, $($argument),*);
        let expected = plain::$call($room, $($argument),*);
        assert_eq!(answer, expected, "{} in a {}", stringify!($call), told($room));
    };
}

fn modes(from: &mut Seeded, room: &[u32]) {
    same!(room, has_compiled_modes());
    same!(room, state_count());
    for mode in [-1, 0, 1, 2, 3, i32::MAX] {
        same!(room, mode_start(mode));
    }
    let lent = from.below(6);
    written(room, lent, ours::compiled_mode_flags, plain::compiled_mode_flags(room, lent));
    written(room, lent, ours::mode_state_counts, plain::mode_state_counts(room, lent));
}

/// What is written is the answer, then zeros; refused, zeros.
fn written(
    room: &[u32],
    lent: usize,
    call: fn(&[u32], &mut [u32]) -> Result<usize, Refusal>,
    expected: Result<Vec<u32>, Refusal>,
) {
    let mut out = vec![0xA5A5_A5A5; lent];
    let length = call(room, &mut out);
    assert_eq!(
        length,
        expected.as_ref().map(Vec::len).map_err(|&refusal| refusal),
        "{}",
        told(room)
    );
    let mut left = expected.unwrap_or_default();
    left.resize(lent, 0);
    assert_eq!(out, left, "{}", told(room));
}

fn targets(room: &[u32], state: u16, symbols: [i32; 3]) {
    same!(room, accept(state));
    same!(room, eof_target(state));
    same!(room, eof_continuation(state));
    for symbol in symbols {
        same!(room, ascii_target(state, symbol as u8));
        same!(room, char_target(state, symbol));
        same!(room, char_continuation(state, symbol));
    }
}

fn scans(room: &[u32], state: u16) {
    let run = ours::ascii_run(room, state);
    let run = run.as_ref().map(|run| run.words()).map_err(|&refusal| refusal);
    assert_eq!(run, plain::ascii_run(room, state), "ascii_run in a {}", told(room));

    let input = b"10 ply \xC2\xB0\"";
    let scan = ours::scan_length(room, state, input)
        .map(|scan| scan.map(|scan| (scan.bytes, scan.found_exit)));
    let expected = plain::scan_ascii_run(room, state, input);
    assert_eq!(scan, expected, "scan in a {}", told(room));
    let front = expected.map(|scan| scan.map(|(bytes, _)| &input[..bytes]));
    assert_eq!(ours::scan(room, state, input), front, "scan in a {}", told(room));
}

fn records(room: &[u32], number: u32) {
    let accept = ours::accept_record(room, number).map(|record| {
        record.map(|record| (record.rule, record.consumed_eof, record.actions.as_flattened()))
    });
    assert_eq!(accept, plain::accept_record(room, number), "accept in a {}", told(room));

    let continuation = ours::continuation_record(room, number).map(|record| {
        let contexts = |record: &lexer_dfa::ContinuationRecord| record.contexts.len() as u32;
        record.map(|record| {
            (contexts(&record), record.contexts.as_flattened(), record.config_count, record.configs)
        })
    });
    let expected = plain::continuation_record(room, number);
    assert_eq!(continuation, expected, "continuation in a {}", told(room));
}
