//! The samples that stand in the repository are those that `record` writes.

pub fn is_recorded() -> usize {
    let all = compare::sample::all();
    for (name, written) in &all {
        let stands = std::fs::read(crate::sample_of(name)).expect("a sample can be read");
        assert!(
            stands == *written,
            "crates/{name}/stdin is not what `cargo run --release --bin record` writes"
        );
    }
    all.len()
}
