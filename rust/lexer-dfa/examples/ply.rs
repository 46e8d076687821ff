//! Ply 10 must not arrive as ply 1 and a stray 0: classifies the row of a state that loops on
//! digits, and skips the ply's number with its run; then decodes a table of one state.
//!
//!     cargo run --release --example ply

use lexer_dfa::{AsciiRun, Refusal, Table, class};

fn main() -> Result<(), Refusal> {
    // State 7 loops on the digits; every other symbol leads to state 0.
    let mut row = [0; 128];
    row[usize::from(b'0')..=usize::from(b'9')].fill(7);

    let run = AsciiRun::classify(&row, 7)?;
    println!("run words: {:?}", run.words());
    println!("run class: {:?}", class(run.words())?);

    for line in ["10 ply", "10"] {
        let Some(scan) = run.scan_length(line.as_bytes()) else {
            println!("{line:?}: no run");
            continue;
        };
        let (skipped, rest) = line.split_at(scan.bytes);
        match scan.found_exit {
            true => println!("{line:?}: skips {skipped:?}, exit before {rest:?}"),
            false => println!("{line:?}: skips {skipped:?}, no exit"),
        }
    }

    // A row is 128 targets long; anything else is refused, by number and place.
    if let Err(refusal) = AsciiRun::classify(&row[..127], 7) {
        println!("127 targets: {refusal}");
    }

    let words = table_words();
    let table = Table::decode(&words)?;
    let (modes, states, length) = (table.modes(), table.states(), table.words().len());
    println!("table: modes {modes}, states {states}, words {length}");
    if let Err(refusal) = Table::decode(&words[..81]) {
        println!("81 words: {refusal}");
    }
    Ok(())
}

/// One mode, and one state that loops on every ASCII symbol: the tag, then the eight sections.
fn table_words() -> Vec<u32> {
    const NONE: u32 = u32::MAX;
    let modes = [1, 0];
    let states = [1, 0, 0, 65535, NONE];
    let runs = [1, 1];
    let ascii_rows = [&[1][..], &[0; 64]].concat();
    let (wide_rows, accepts, escape_rows, continuations) = ([1, 0], [0], [1, NONE, 0], [0]);
    let sections: [&[u32]; 8] =
        [&modes, &states, &runs, &ascii_rows, &wide_rows, &accepts, &escape_rows, &continuations];
    [&[0x4C44_0001][..], &sections.concat()].concat()
}
