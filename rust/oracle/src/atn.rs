//! The place of the two files in the original's tree, and the transitions that document 01 names
//! in place of the ATN's.

// The text is the original's, and its style too.
#[allow(clippy::all)]
pub mod ascii_range {
    include!(concat!(env!("OUT_DIR"), "/ascii_range.rs"));
}

#[allow(clippy::all)]
pub mod lexer_dfa {
    include!(concat!(env!("OUT_DIR"), "/lexer_dfa.rs"));

    pub mod reach;
}

/// A consuming transition: the five kinds of document 01.
#[derive(Clone, Debug)]
pub enum LexerTransition {
    Atom { label: i32 },
    Range { start: i32, stop: i32 },
    Set { set: IntervalSet },
    NotSet { set: IntervalSet },
    Wildcard,
}

/// The pairs of a set as they are listed; the source's own type sorts and merges them.
#[derive(Clone, Debug)]
pub struct IntervalSet {
    pub listed: Vec<(i32, i32)>,
}

impl IntervalSet {
    pub fn ranges(&self) -> &[(i32, i32)] {
        &self.listed
    }
}
