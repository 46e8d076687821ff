//! A table as document 01 lists it under "Words of a table": the eight sections behind the tag,
//! each number as its word has it.

pub const TAG: u32 = 0x4C44_0001;
pub const NONE: u32 = u32::MAX;
pub const ESCAPE: u32 = 65534;
pub const DEAD: u32 = 65535;

#[derive(Clone, Debug, Default, Eq, PartialEq)]
pub struct Table {
    /// Start states, or NONE.
    pub modes: Vec<u32>,
    pub states: Vec<State>,
    /// The words of each run, one or three.
    pub runs: Vec<Vec<u32>>,
    /// 128 targets each.
    pub ascii_rows: Vec<Vec<u16>>,
    pub wide_rows: Vec<Vec<Range>>,
    pub accepts: Vec<Accept>,
    pub escape_rows: Vec<EscapeRow>,
    pub continuations: Vec<Continuation>,
}

#[derive(Clone, Debug, Eq, PartialEq)]
pub struct State {
    pub ascii_row: u32,
    pub wide_row: u32,
    pub eof_target: u32,
    /// An accept's index, or NONE.
    pub accept: u32,
}

/// Of a wide row with its target, of an escape row with its continuation.
#[derive(Clone, Copy, Debug, Eq, PartialEq)]
pub struct Range {
    pub low: u32,
    pub high: u32,
    pub to: u32,
}

#[derive(Clone, Debug, Eq, PartialEq)]
pub struct Accept {
    pub rule: u32,
    /// A flag is any word; nonzero means set.
    pub consumed_eof: u32,
    pub actions: Vec<[u32; 3]>,
}

#[derive(Clone, Debug, Eq, PartialEq)]
pub struct EscapeRow {
    /// The EOF continuation, or NONE.
    pub eof: u32,
    pub ranges: Vec<Range>,
}

#[derive(Clone, Debug, Eq, PartialEq)]
pub struct Continuation {
    /// Kind 0 or 1, and two words.
    pub contexts: Vec<[u32; 3]>,
    pub configs: Vec<Config>,
}

#[derive(Clone, Debug, Eq, PartialEq)]
pub struct Config {
    pub state: u32,
    /// The alternative rule, or NONE.
    pub alternative: u32,
    pub flags: [u32; 2],
    pub context: u32,
    pub actions: Vec<[u32; 3]>,
}
