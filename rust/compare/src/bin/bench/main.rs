//! Times the proved library against the original, both in one run over the same inputs, and prints
//! a Markdown table. Words choose parts of it: runs, decode, encode, lookups, rows, pools.
//!
//!     cargo run --release --bin bench [WORD..]

#[cfg(not(no_oracle))]
mod decode;
#[cfg(not(no_oracle))]
mod encode;
#[cfg(not(no_oracle))]
mod lookups;
#[cfg(not(no_oracle))]
mod rows;
#[cfg(not(no_oracle))]
mod runs;
#[cfg(not(no_oracle))]
mod timing;

#[cfg(not(no_oracle))]
fn main() {
    println!(
        "Medians of {} rounds, both sides turn by turn; ratio is ours / Rust's. The Rust is the\n\
         original with a plain search in the place of the crate `memchr`.\n",
        timing::ROUNDS
    );
    println!("| call | Rust ns | ours ns | ratio |");
    println!("|---|---:|---:|---:|");
    let parts: [(&str, fn()); 7] = [
        ("runs", runs::scans),
        ("runs", runs::classifications),
        ("decode", decode::decodings),
        ("encode", encode::encodings),
        ("lookups", lookups::lookups),
        ("rows", rows::builds),
        ("pools", rows::pools),
    ];
    let asked: Vec<String> = std::env::args().skip(1).collect();
    for (name, part) in parts {
        if asked.is_empty() || asked.iter().any(|word| word == name) {
            part();
        }
    }
}

#[cfg(no_oracle)]
fn main() {
    eprintln!("nothing timed: {}", compare::no_original());
    std::process::exit(1);
}
