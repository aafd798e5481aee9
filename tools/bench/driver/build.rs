//! Links our two libraries, which tools/bench/run puts beside this file.

fn main() {
    let folder = format!("{}/library", std::env::var("CARGO_MANIFEST_DIR").unwrap());
    println!("cargo:rustc-link-search=native={folder}");
    for library in ["c_api", "bench"] {
        println!("cargo:rustc-link-lib=static={library}");
        println!("cargo:rerun-if-changed={folder}/lib{library}.a");
    }
}
