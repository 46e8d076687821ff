//! Plain functions over the original for the tests to call. They stand inside its module, so they
//! reach what is private there.

use super::*;
use crate::atn::ascii_range::AsciiRangeClass;

const _: () = assert!(DEAD_STATE == 65535 && ESCAPE_STATE == 65534);

/// The run of a row in a state.
pub fn classify(row: &[u16; 128], state: u16) -> AsciiRun {
    AsciiRun::classify(row, state)
}

/// The words of a run.
pub fn run_words(run: AsciiRun) -> Vec<u32> {
    let mut words = Vec::with_capacity(run.serialized_words());
    run.write_serialized(&mut words);
    words
}

/// The run at the front of the words and the number of its words.
pub fn read_run(words: &[u32]) -> Option<(AsciiRun, usize)> {
    let mut reader = SerializedReader { data: words, position: 0 };
    let run = AsciiRun::read_serialized(&mut reader)?;
    Some((run, reader.position))
}

/// How far a run goes in the input; nothing where there is no run.
pub fn scan(run: AsciiRun, input: &[u8]) -> Option<AsciiRunScan> {
    run.scan(input)
}

/// The class of the ranges whose run these words are exactly.
pub fn class(words: &[u32]) -> Option<AsciiRangeClass> {
    match read_run(words)? {
        (AsciiRun::Ranges(ranges), read) if read == words.len() => Some(ranges.class()),
        _ => None,
    }
}

/// The intervals of each transition of a list.
pub fn intervals(list: &[LexerTransition]) -> Vec<Vec<(i32, i32)>> {
    list.iter().map(transition_char_intervals).collect()
}

/// The segments of a transition list.
pub fn segments(list: &[LexerTransition]) -> Vec<(i32, i32)> {
    char_segments(&intervals(list))
}

/// The masks of a transition list, segment after segment.
pub fn masks(list: &[LexerTransition]) -> Vec<u64> {
    let intervals = intervals(list);
    segment_mask_matrix(&char_segments(&intervals), &intervals, list.len())
}

/// The ascii row and the wide row of segments with their targets.
pub fn split(segments: &[(i32, i32, u16)]) -> ([u16; 128], Vec<(u32, u32, u16)>) {
    let (ascii, wide) = split_rows(segments);
    let wide = wide.iter().map(|range| (range.low, range.high, range.target));
    (ascii, wide.collect())
}

/// The escape row of segments with their continuations.
pub fn merge(segments: &[(i32, i32, u32)]) -> Vec<(u32, u32, u32)> {
    merge_escape_ranges(segments)
        .iter()
        .map(|range| (range.low, range.high, range.continuation))
        .collect()
}

/// An ascii row, a wide row and an escape row.
pub type Rows = ([u16; 128], Vec<(u32, u32, u16)>, Vec<(u32, u32, u32)>);

/// The rows of a transition list, made as `expand_state` does, but for the targets: a mask's target and
/// continuation are asked of the caller, once for each mask, and not of the ATN.
pub fn rows(list: &[LexerTransition], mut give: impl FnMut(&[u64]) -> (u16, u32)) -> Rows {
    let intervals = intervals(list);
    let segments = char_segments(&intervals);
    let matrix = segment_mask_matrix(&segments, &intervals, list.len());
    let mut known: FxHashMap<Vec<u64>, (u16, u32)> = FxHashMap::default();
    let (mut targets, mut escapes) = (Vec::new(), Vec::new());
    let masks = matrix.chunks(list.len().div_ceil(64).max(1));
    for (mask, (first, last)) in masks.zip(segments) {
        if mask.iter().any(|&word| word != 0) {
            let given = known.get(mask).copied().unwrap_or_else(|| {
                let new = give(mask);
                known.insert(mask.to_vec(), new);
                new
            });
            if given.0 != DEAD_STATE {
                targets.push((first, last, given.0));
                if given.1 != u32::MAX {
                    escapes.push((first, last, given.1));
                }
            }
        }
    }
    let (ascii, wide) = split(&targets);
    (ascii, wide, merge(&escapes))
}

/// Both pools with their rows.
#[derive(Debug, Default)]
pub struct Pools {
    known: RowPools,
    ascii: Vec<[u16; 128]>,
    wide: Vec<Box<[WideRange]>>,
}

impl Pools {
    pub fn intern_ascii(&mut self, row: [u16; 128]) -> u32 {
        self.known.intern_ascii(&mut self.ascii, row)
    }

    pub fn intern_wide(&mut self, row: &[(u32, u32, u16)]) -> u32 {
        let row = row.iter().map(|&(low, high, target)| WideRange { low, high, target }).collect();
        self.known.intern_wide(&mut self.wide, row)
    }

    /// The targets of all ascii rows, row after row.
    pub fn ascii_numbers(&self) -> &[u16] {
        self.ascii.as_flattened()
    }

    /// All wide rows, each its count and then its ranges.
    pub fn wide_numbers(&self) -> Vec<u32> {
        let mut numbers = Vec::new();
        for row in &self.wide {
            numbers.push(row.len() as u32);
            numbers.extend(row.iter().flat_map(|r| [r.low, r.high, u32::from(r.target)]));
        }
        numbers
    }
}

fn place<T>(list: &[T], item: &T) -> usize {
    list.iter().position(|other| std::ptr::eq(other, item)).expect("an item of the list")
}

/// The number of a state's accept.
pub fn accept(table: &CompiledLexerDfa, state: u16) -> Option<usize> {
    Some(place(&table.accepts, table.accept(state)?))
}

/// The number of the continuation on a symbol.
pub fn char_continuation(table: &CompiledLexerDfa, state: u16, symbol: i32) -> Option<usize> {
    Some(place(&table.continuations, table.char_continuation(state, symbol)?))
}

/// The number of the continuation at the end of the input.
pub fn eof_continuation(table: &CompiledLexerDfa, state: u16) -> Option<usize> {
    Some(place(&table.continuations, table.eof_continuation(state)?))
}

fn action_words(actions: &[CompiledLexerActionTrace]) -> Vec<u32> {
    let words = |action: &CompiledLexerActionTrace| {
        [action.action_index as u32, action.rule_index as u32, action.behind as u32]
    };
    actions.iter().flat_map(words).collect()
}

/// The rule and the flag of each accept, and the words of its actions.
pub fn accepts(table: &CompiledLexerDfa) -> Vec<(usize, bool, Vec<u32>)> {
    let parts = |accept: &CompiledLexerAccept| {
        (accept.rule_index, accept.consumed_eof, action_words(&accept.actions))
    };
    table.accepts.iter().map(parts).collect()
}

/// The words of the contexts and of the configs of each continuation.
pub fn continuations(table: &CompiledLexerDfa) -> Vec<(Vec<u32>, Vec<u32>)> {
    let context = |context: &CompiledLexerContext| match *context {
        CompiledLexerContext::Singleton { parent, return_state } => {
            [0, parent, return_state as u32]
        }
        CompiledLexerContext::Union { left, right } => [1, left, right],
    };
    let config = |config: &CompiledLexerConfig| {
        let rule = config.alt_rule_index.map_or(u32::MAX, |rule| rule as u32);
        let flags = [config.consumed_eof, config.passed_non_greedy].map(u32::from);
        let [state, count] = [config.state, config.actions.len()].map(|number| number as u32);
        let fields = [state, rule, flags[0], flags[1], config.context, count];
        [&fields[..], &action_words(&config.actions)].concat()
    };
    let parts = |continuation: &CompiledLexerContinuation| {
        let contexts = continuation.contexts.iter().flat_map(context).collect();
        (contexts, continuation.configs.iter().flat_map(config).collect())
    };
    table.continuations.iter().map(parts).collect()
}
