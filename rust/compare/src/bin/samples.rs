//! Writes the tables of samples/, to the folder given or to ../samples.
//!
//!     cargo run --release --bin samples [FOLDER]

use std::path::Path;

fn main() -> std::io::Result<()> {
    let folder = std::env::args().nth(1);
    let folder = Path::new(folder.as_deref().unwrap_or("../samples"));
    for (name, bytes) in compare::samples::files() {
        let path = folder.join(name);
        std::fs::write(&path, &bytes)?;
        println!("{} words written to {}", bytes.len() / 4, path.display());
    }
    Ok(())
}
