//! The original, asked in a way that it can answer.

use lexer_dfa::Transition;
use oracle::{CompiledLexerDfa, IntervalSet, LexerTransition};

/// The table whose words these are. The original reserves room for the mode count before it reads
/// a mode (docs/DIFFERENCES.md), up to 16 GiB. A count that goes past the words is refused whatever
/// it is, so a smaller one that does too is asked in its place.
pub fn decode(words: &[u32]) -> Option<CompiledLexerDfa> {
    if words.get(1).is_some_and(|&modes| modes as usize > words.len()) {
        let mut fewer = words.to_vec();
        fewer[1] = words.len() as u32;
        return CompiledLexerDfa::from_serialized(&fewer);
    }
    CompiledLexerDfa::from_serialized(words)
}

/// The same transitions, as the original has them.
pub fn transitions(list: &[Transition]) -> Vec<LexerTransition> {
    let set = |pairs: &[(i32, i32)]| IntervalSet { listed: pairs.to_vec() };
    let one = |transition: &Transition| match transition {
        Transition::Atom(label) => LexerTransition::Atom { label: *label },
        Transition::Range(start, stop) => LexerTransition::Range { start: *start, stop: *stop },
        Transition::Set(pairs) => LexerTransition::Set { set: set(pairs) },
        Transition::NotSet(pairs) => LexerTransition::NotSet { set: set(pairs) },
        Transition::Wildcard => LexerTransition::Wildcard,
    };
    list.iter().map(one).collect()
}
