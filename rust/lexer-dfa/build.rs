//! Links the static library that `./build` writes at the top of the repository.
//! LEXER_DFA_LIB names another folder that has it, by a full path.

use std::env;
use std::path::{Path, PathBuf};

const MADE_HERE: &str = "../../target";
const ARCHIVE: &str = "liblexer_dfa.a";

fn main() {
    println!("cargo::rerun-if-env-changed=LEXER_DFA_LIB");
    let here = env::var("CARGO_MANIFEST_DIR").expect("cargo sets CARGO_MANIFEST_DIR");
    let folder = match env::var_os("LEXER_DFA_LIB") {
        Some(named) => PathBuf::from(named),
        None => Path::new(&here).join(MADE_HERE),
    };
    let folder = folder.canonicalize().unwrap_or(folder);
    let archive = folder.join(ARCHIVE);
    println!("cargo::rerun-if-changed={}", archive.display());
    if !archive.is_file() {
        println!(
            "cargo::error={} is not there: run `./build` at the top of the repository, or let \
             LEXER_DFA_LIB name the folder that has {ARCHIVE}",
            archive.display()
        );
        return;
    }
    println!("cargo::rustc-link-search=native={}", folder.display());
    println!("cargo::rustc-link-lib=static=lexer_dfa");
}
