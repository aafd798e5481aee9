//! Links our library, which tools/differential/run puts beside this file.

fn main() {
    let folder = format!("{}/library", std::env::var("CARGO_MANIFEST_DIR").unwrap());
    println!("cargo:rustc-link-search=native={folder}");
    println!("cargo:rustc-link-lib=static=c_api");
    println!("cargo:rerun-if-changed={folder}/libc_api.a");
}
