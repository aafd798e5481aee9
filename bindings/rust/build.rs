//! Provides the proved library that the crate links, libc_api.a: `tools/library c_api` proves and writes it at the
//! repository's top, unless WARPBOULDER_LIBRARY names a folder that has it.

use std::path::{Path, PathBuf};
use std::process::{Command, Output};
use std::{env, fs, io, process};

const LIBRARY: &str = "libc_api.a";
/// Proves and builds it, seen from the repository's top.
const BUILDER: &str = "tools/library";
const FOLDER_VARIABLE: &str = "WARPBOULDER_LIBRARY";
/// How many lines of the prover's output a failure shows.
const LINES_SHOWN: usize = 20;

fn main() {
    if let Err(reason) = link_library() {
        eprintln!("warpboulder: {reason}");
        process::exit(1);
    }
}

fn link_library() -> Result<(), String> {
    println!("cargo:rerun-if-changed=build.rs");
    println!("cargo:rerun-if-env-changed={FOLDER_VARIABLE}");
    check_target()?;
    let library = match env::var_os(FOLDER_VARIABLE) {
        Some(folder) if !folder.is_empty() => given_library(Path::new(&folder))?,
        _ => proved_library()?,
    };
    // A copy, because the folder target may be removed while cargo still has what it built.
    let folder = PathBuf::from(variable("OUT_DIR")?);
    fs::copy(&library, folder.join(LIBRARY))
        .map_err(|error| format!("{} cannot be copied to {}: {error}.", library.display(), folder.display()))?;
    println!("cargo:rustc-link-search=native={}", folder.display());
    println!("cargo:rustc-link-lib=static=c_api");
    Ok(())
}

fn variable(name: &str) -> Result<String, String> {
    env::var(name).map_err(|_| format!("cargo has not set {name}; build the crate with cargo."))
}

/// The kit writes libraries for this target alone.
fn check_target() -> Result<(), String> {
    let (arch, os) = (variable("CARGO_CFG_TARGET_ARCH")?, variable("CARGO_CFG_TARGET_OS")?);
    if arch == "x86_64" && os == "linux" {
        return Ok(());
    }
    Err(format!("the proved library is for x86-64-v2 Linux, and the target is {arch} {os}."))
}

fn given_library(folder: &Path) -> Result<PathBuf, String> {
    if folder.is_relative() {
        // It would be looked for beside this file, not where the caller stands.
        return Err(format!("{FOLDER_VARIABLE} is {}, and has to be an absolute path.", folder.display()));
    }
    let library = folder.join(LIBRARY);
    println!("cargo:rerun-if-changed={}", library.display());
    if library.is_file() {
        return Ok(library);
    }
    Err(format!(
        "{FOLDER_VARIABLE} is {}, which has no {LIBRARY}; name a folder that has it, or unset the variable.",
        folder.display()
    ))
}

fn proved_library() -> Result<PathBuf, String> {
    let top = repository_top()?;
    watch_sources(&top)?;
    let output = Command::new(top.join(BUILDER)).arg("c_api").current_dir(&top).output().map_err(cannot_start)?;
    if !output.status.success() {
        return Err(not_proved(&output));
    }
    let library = top.join("target").join("staticlib").join(LIBRARY);
    if library.is_file() {
        return Ok(library);
    }
    Err(format!("'{BUILDER} c_api' ended well and wrote no {}.", library.display()))
}

/// Has cargo ask again where the sources of the library change. What `rt` builds lies among them, in crates/*/out, so
/// the folder crates is not named as a whole.
fn watch_sources(top: &Path) -> Result<(), String> {
    for file in ["crates.txt", BUILDER] {
        println!("cargo:rerun-if-changed={}", top.join(file).display());
    }
    let crates = top.join("crates");
    let cannot_read = |error: io::Error| format!("{} cannot be read: {error}.", crates.display());
    for entry in fs::read_dir(&crates).map_err(cannot_read)? {
        let folder = entry.map_err(cannot_read)?.path();
        for part in ["src", "specs", "proofs"] {
            let part = folder.join(part);
            if part.is_dir() {
                println!("cargo:rerun-if-changed={}", part.display());
            }
        }
    }
    Ok(())
}

/// Two folders up from this crate.
fn repository_top() -> Result<PathBuf, String> {
    let crate_folder = PathBuf::from(variable("CARGO_MANIFEST_DIR")?);
    match crate_folder.parent().and_then(Path::parent) {
        Some(top) if top.join("crates.txt").is_file() => Ok(top.to_path_buf()),
        _ => Err(format!(
            "{} is not bindings/rust of a Warpboulder repository, so that there is nothing to prove and build; \
             set {FOLDER_VARIABLE} to a folder that has {LIBRARY}.",
            crate_folder.display()
        )),
    }
}

fn cannot_start(error: io::Error) -> String {
    format!(
        "'{BUILDER}', which proves and builds {LIBRARY}, cannot be started: {error}; \
         mend that, or set {FOLDER_VARIABLE} to a folder that has {LIBRARY}."
    )
}

fn not_proved(output: &Output) -> String {
    let text = [output.stdout.as_slice(), output.stderr.as_slice()].concat();
    let text = String::from_utf8_lossy(&text);
    let lines: Vec<&str> = text.lines().collect();
    let last = &lines[lines.len().saturating_sub(LINES_SHOWN)..];
    format!(
        "'{BUILDER} c_api' did not prove and build the library ({}); where the Rattle kit is not at hand, set \
         {FOLDER_VARIABLE} to a folder that has {LIBRARY}. The last lines of its output:\n{}",
        output.status,
        last.join("\n")
    )
}
