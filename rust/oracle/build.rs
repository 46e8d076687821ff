//! Reads the original `ascii_range.rs` and `lexer_dfa.rs` from docs/src, applies the edits of
//! `edits.rs` and leaves the result in OUT_DIR for `src/lib.rs` to include.
//!
//! The folder docs/src is the one that LEXER_DFA_SRC names (by a full path), else the one beside the
//! repository. Where it has no original, the crate is built with the cfg `no_oracle`.

mod edits;

use edits::{Edit, How};
use std::path::{Path, PathBuf};
use std::{env, fs};

const BESIDE: &str = "../../../shared/docs/src";
const ORIGINAL: &str = "crates/antlr-rust-runtime/src/atn";

fn main() {
    println!("cargo::rerun-if-env-changed=LEXER_DFA_SRC");
    println!("cargo::rerun-if-changed=build.rs");
    println!("cargo::rerun-if-changed=edits.rs");
    println!("cargo::rustc-check-cfg=cfg(no_oracle)");
    // The published default build has this feature off; the text asks for it by name.
    println!("cargo::rustc-check-cfg=cfg(feature, values(\"perf-counters\"))");

    let from = source_folder();
    println!("cargo::rustc-env=ORACLE_FOLDER={}", from.display());
    let files = [("ascii_range.rs", edits::ASCII_RANGE), ("lexer_dfa.rs", edits::LEXER_DFA)];
    // A file that is not there yet is watched too, so that the oracle is built once it comes.
    for (name, _) in files {
        println!("cargo::rerun-if-changed={}", from.join(name).display());
    }
    if !files.iter().all(|(name, _)| from.join(name).is_file()) {
        println!("cargo::rustc-cfg=no_oracle");
        println!("cargo::metadata=present=no");
        return;
    }
    println!("cargo::metadata=present=yes");

    let out = PathBuf::from(env::var("OUT_DIR").expect("cargo sets OUT_DIR"));
    for (name, list) in files {
        let mut text = fs::read_to_string(from.join(name)).expect("the original can be read");
        for edit in list {
            text = apply(&text, edit).unwrap_or_else(|fault| {
                panic!("{name}: {fault}: `{}` ({})", edit.anchor, edit.why)
            });
        }
        fs::write(out.join(name), text).expect("OUT_DIR can be written");
    }
}

/// The folder of the two files.
fn source_folder() -> PathBuf {
    let here = env::var("CARGO_MANIFEST_DIR").expect("cargo sets CARGO_MANIFEST_DIR");
    let src = match env::var_os("LEXER_DFA_SRC") {
        Some(named) => PathBuf::from(named),
        None => Path::new(&here).join(BESIDE),
    };
    let folder = src.join(ORIGINAL);
    folder.canonicalize().unwrap_or(folder)
}

/// The text after one edit. An anchor that is missing, or met twice where once is meant, is a
/// fault: the original has changed and the edits have to be read again.
fn apply(text: &str, edit: &Edit) -> Result<String, &'static str> {
    let met = text.matches(edit.anchor).count();
    match edit.how {
        How::Everywhere if met == 0 => Err("anchor not found"),
        How::Everywhere => Ok(text.replace(edit.anchor, edit.put)),
        _ if met != 1 => Err("anchor not found exactly once"),
        How::Once => Ok(text.replace(edit.anchor, edit.put)),
        How::DropItem => {
            let at = text.find(edit.anchor).expect("met once");
            let (start, end) = (item_start(text, at), item_end(text, at)?);
            Ok([&text[..start], &text[end..]].concat())
        }
    }
}

/// Where the item at `at` begins, with the comments and attributes that stand above it.
fn item_start(text: &str, at: usize) -> usize {
    let line_start = |to: usize| text[..to].rfind('\n').map_or(0, |newline| newline + 1);
    let mut start = line_start(at);
    while start > 0 {
        let above = line_start(start - 1);
        let line = text[above..start].trim_start();
        if !line.starts_with("///") && !line.starts_with("#[") {
            break;
        }
        start = above;
    }
    start
}

/// Where the item at `at` ends: after the `;` or the `}` that closes it, and the rest of its line.
/// Brackets in line comments and strings do not count.
fn item_end(text: &str, at: usize) -> Result<usize, &'static str> {
    let mut depth = 0;
    let mut chars = text[at..].char_indices().peekable();
    while let Some((place, c)) = chars.next() {
        match c {
            '"' => while chars.next().is_some_and(|(_, inner)| inner != '"') {},
            '/' if chars.peek().is_some_and(|&(_, next)| next == '/') => {
                while chars.next().is_some_and(|(_, inner)| inner != '\n') {}
            }
            '{' | '(' | '[' => depth += 1,
            '}' | ')' | ']' => depth -= 1,
            _ => {}
        }
        let closed = c == ';' || (c == '}' && chars.peek().is_none_or(|&(_, next)| next != ';'));
        if depth == 0 && closed {
            let end = at + place + 1;
            return Ok(end + text[end..].find('\n').map_or(0, |newline| newline + 1));
        }
    }
    Err("item not closed")
}
