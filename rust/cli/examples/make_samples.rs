//! Writes the files of `samples/` anew:
//! `cargo run --offline --release -p kelompuris-cli --example make_samples`.

#[path = "../tests/common/samples.rs"]
mod samples;

use std::path::Path;

fn main() -> std::io::Result<()> {
    let folder = Path::new(env!("CARGO_MANIFEST_DIR")).join("../../samples");
    for (name, bytes) in samples::all() {
        std::fs::write(folder.join(name), bytes)?;
    }
    Ok(())
}
