//! Writes the worked tables into the repository's folder `tables/`:
//! `cargo run --offline -p tables`.

use std::path::Path;

fn main() -> std::io::Result<()> {
    let folder = Path::new(env!("CARGO_MANIFEST_DIR")).join("../../tables");
    for (name, text) in tables::worked::FILES {
        std::fs::write(folder.join(name), tables::table(text))?;
        println!("{name}");
    }
    Ok(())
}
