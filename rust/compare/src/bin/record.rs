//! Writes the recorded samples for the programs `replay`, `replay_lookups`, `replay_rows` and `replay_forms`,
//! into the folder of crates given or into ../crates.
//!
//!     cargo run --release --bin record [CRATES]

#[cfg(not(no_oracle))]
fn main() -> std::io::Result<()> {
    let crates = std::env::args().nth(1);
    let crates = crates.as_deref().unwrap_or("../crates");
    for (name, bytes) in compare::sample::all() {
        let path = format!("{crates}/{name}/stdin");
        std::fs::write(&path, &bytes)?;
        println!("{} bytes written to {path}", bytes.len());
    }
    Ok(())
}

#[cfg(no_oracle)]
fn main() {
    eprintln!("nothing recorded: {}", compare::no_original());
    std::process::exit(1);
}
