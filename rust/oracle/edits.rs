//! Every edit that completes the original as document 01 says, with its reason. An anchor is just
//! long enough to find its place.

pub struct Edit {
    pub how: How,
    pub anchor: &'static str,
    /// What stands there afterwards.
    pub put: &'static str,
    pub why: &'static str,
}

pub enum How {
    /// Every place that has the anchor is replaced.
    Everywhere,
    /// The one place that has the anchor is replaced.
    Once,
    /// The item that starts at the anchor goes, with its comments and attributes.
    DropItem,
}

const fn everywhere(anchor: &'static str, put: &'static str, why: &'static str) -> Edit {
    Edit { how: How::Everywhere, anchor, put, why }
}

const fn once(anchor: &'static str, put: &'static str, why: &'static str) -> Edit {
    Edit { how: How::Once, anchor, put, why }
}

const fn drop_item(anchor: &'static str, why: &'static str) -> Edit {
    Edit { how: How::DropItem, anchor, put: "", why }
}

const INNER_DOC: &str = "an included file may not open with an inner doc comment";
const OPEN: &str = "the tests name it from another crate; what is private stays so, since \
    src/atn/lexer_dfa/reach.rs stands inside the module";
const CLASS: &str = "`class` stands behind a feature, and the oracle is built with it; in \
    lexer_dfa.rs the feature stays off, as in the published default build";
const COMPILE: &str = "document 01 leaves `compile` in Rust: it needs the ATN";
const CLOSURE: &str = "document 01 leaves closures in Rust: they need the ATN and the interpreter";

pub const ASCII_RANGE: &[Edit] = &[
    everywhere("//!", "//", INNER_DOC),
    everywhere("pub(super)", "pub", OPEN),
    everywhere("pub(crate)", "pub", OPEN),
    everywhere("#[cfg(any(feature = \"perf-counters\", test))]", "", CLASS),
    drop_item("fn contains(", "only the source's own tests ask it"),
];

pub const LEXER_DFA: &[Edit] = &[
    everywhere("//!", "//", INNER_DOC),
    everywhere("pub(super)", "pub", OPEN),
    // What document 01 fixes. Its ESCAPE_STATE and DEAD_STATE are the source's own.
    once("0x4C58_4407", "0x4C44_0001", "document 01 fixes the tag"),
    once("_ => {}", "", "document 01's five kinds of transition leave no other"),
    // Names that are met elsewhere, or no more.
    once("use memchr::", "use crate::memchr::", "src/memchr.rs stands in for the registry's"),
    once("{LexerAtn, LexerTransition}", "LexerTransition", "src/atn.rs has the five kinds"),
    once("{PredictionFxHasher, PredictionWorkspace}", "PredictionFxHasher", CLOSURE),
    drop_item("use crate::atn::lexer::{", CLOSURE),
    drop_item("use crate::int_stream::EOF", COMPILE),
    drop_item("use crate::lexer::{", CLOSURE),
    // `from_encoded` and `compile`, with all that only they reach.
    drop_item("pub fn from_encoded(", "document 01 leaves it in Rust: it needs the blob container"),
    drop_item("pub fn compile(", COMPILE),
    drop_item("const MAX_MODE_STATES", COMPILE),
    drop_item("const MAX_CONTEXT_DEPTH", CLOSURE),
    drop_item("const MAX_ACTION_TRACES", CLOSURE),
    drop_item("struct ModeBuild {", COMPILE),
    drop_item("impl ModeBuild {", COMPILE),
    drop_item("struct StateRows {", COMPILE),
    drop_item("struct EdgeTarget {", COMPILE),
    drop_item("impl EdgeTarget {", COMPILE),
    drop_item("fn relative_config_key(", COMPILE),
    drop_item("fn compiled_accept(", COMPILE),
    drop_item("fn build_mode(", COMPILE),
    drop_item("fn expand_state(", COMPILE),
    drop_item("fn consuming_entries<", COMPILE),
    drop_item("fn move_target(", COMPILE),
    drop_item("fn eof_move(", COMPILE),
    drop_item("fn commit_mode(", COMPILE),
    drop_item("fn closed_configs(", CLOSURE),
    drop_item("fn prune_dead_action_traces(", CLOSURE),
    drop_item("fn compile_context(", CLOSURE),
    drop_item("fn has_recursive_context(", CLOSURE),
];
