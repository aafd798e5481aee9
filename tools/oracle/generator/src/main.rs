//! Writes the stored answers of the original Rust: three files, always the same bytes. See docs/ORACLE.md.

mod chunks;
mod columns;
mod descriptor;
mod facts;
mod file;
mod handmade;
mod leaves;
mod numbers;
mod pieces;
mod reading;
mod refusal;
mod shapes;

use std::path::Path;

fn main() {
    let arguments: Vec<String> = std::env::args().skip(1).collect();
    let [folder, sources] = &arguments[..] else {
        panic!("two arguments are needed: the folder to write to and the sha256 of the sources");
    };
    facts::check();
    // All is computed before anything is written.
    let files = [("leaves.bin", leaves::file()), ("columns.bin", columns::file()), ("chunks.bin", chunks::file())];
    for (name, file) in files {
        let path = Path::new(folder).join(name);
        std::fs::write(&path, file.finish(sources))
            .unwrap_or_else(|error| panic!("{} cannot be written: {error}", path.display()));
    }
}
