//! Runs the program and keeps what it says.

// Each file of tests is a program of its own and uses some of these.
#![allow(dead_code)]

use std::fs;
use std::io::Write;
use std::path::{Path, PathBuf};
use std::process::{Command, Output, Stdio};

pub const PROGRAM: &str = env!("CARGO_BIN_EXE_warpboulder");

/// What a run left.
pub struct Ran {
    pub status: i32,
    pub out: Vec<u8>,
    pub err: String,
}

impl Ran {
    pub fn of(output: Output) -> Ran {
        // A program that was ended by a signal has no status, and none of these may be.
        let status = output.status.code().expect("an exit status");
        Ran { status, out: output.stdout, err: text(&output.stderr) }
    }

    pub fn text(&self) -> String {
        text(&self.out)
    }

    /// The run did what it was asked.
    #[track_caller]
    pub fn succeeds(self) -> Ran {
        assert_eq!(self.status, 0, "{}{}", self.text(), self.err);
        self
    }

    /// The run failed with this status, wrote nothing to standard output, and said so in one line that has these parts.
    #[track_caller]
    pub fn fails(self, status: i32, parts: &[&str]) {
        assert_eq!(self.status, status, "{}{}", self.text(), self.err);
        assert!(self.out.is_empty(), "{}", self.text());
        assert!(self.err.starts_with("warpboulder: "), "{}", self.err);
        assert!(self.err.ends_with(".\n"), "{}", self.err);
        assert_eq!(self.err.lines().count(), 1, "{}", self.err);
        has(&self.err, parts);
    }
}

#[track_caller]
pub fn has(text: &str, parts: &[&str]) {
    for part in parts {
        assert!(text.contains(part), "'{part}' is not in:\n{text}");
    }
}

fn text(bytes: &[u8]) -> String {
    String::from_utf8(bytes.to_vec()).expect("text")
}

pub fn command(arguments: &[&str]) -> Command {
    let mut command = Command::new(PROGRAM);
    // Bars are made of blocks, whatever the locale of whoever runs the tests.
    command.args(arguments).env("LC_ALL", "C.UTF-8").stdin(Stdio::null());
    command
}

pub fn run(arguments: &[&str]) -> Ran {
    Ran::of(command(arguments).output().expect("a run"))
}

/// Runs with bytes on standard input. The program may end before it has read them all.
pub fn run_with(arguments: &[&str], input: &[u8]) -> Ran {
    let mut child =
        command(arguments).stdin(Stdio::piped()).stdout(Stdio::piped()).stderr(Stdio::piped()).spawn().expect("a run");
    let mut stdin = child.stdin.take().expect("standard input");
    let input = input.to_vec();
    let writer = std::thread::spawn(move || drop(stdin.write_all(&input)));
    let output = child.wait_with_output().expect("an end");
    writer.join().expect("the writer's end");
    Ran::of(output)
}

/// An empty folder for a test.
pub fn folder(name: &str) -> PathBuf {
    let folder = Path::new(env!("CARGO_TARGET_TMPDIR")).join(name);
    if folder.exists() {
        fs::remove_dir_all(&folder).expect("an old folder removed");
    }
    fs::create_dir_all(&folder).expect("a folder");
    folder
}

/// A file in a test's folder, by its path.
pub fn file(folder: &Path, name: &str, contents: impl AsRef<[u8]>) -> String {
    let path = folder.join(name);
    fs::write(&path, contents).expect("a file written");
    path_text(&path)
}

/// The path of a file that is not there yet.
pub fn no_file(folder: &Path, name: &str) -> String {
    path_text(&folder.join(name))
}

fn path_text(path: &Path) -> String {
    path.to_str().expect("a path in UTF-8").to_string()
}

/// The names in a folder, sorted: what a run leaves there.
pub fn names(folder: &Path) -> Vec<String> {
    let entries = fs::read_dir(folder).expect("a folder");
    let mut names: Vec<String> =
        entries.map(|entry| entry.expect("an entry").file_name().into_string().expect("a name")).collect();
    names.sort();
    names
}

pub fn sample(name: &str) -> String {
    format!("{}/../samples/{name}", env!("CARGO_MANIFEST_DIR"))
}

/// Keys as text, one a line.
pub fn lines(keys: &[i64]) -> String {
    keys.iter().map(|key| format!("{key}\n")).collect()
}

pub fn binary(keys: &[i64]) -> Vec<u8> {
    keys.iter().flat_map(|key| key.to_le_bytes()).collect()
}

/// Keys that differ in sign and size, with the ends of the range.
pub fn mixed_keys() -> Vec<i64> {
    let middle = (0..500i64).map(|index| (index - 250) * 7_919 * (1 << (index % 40)));
    [i64::MIN, i64::MAX, 0, -1, 1].into_iter().chain(middle).collect()
}
