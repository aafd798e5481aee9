//! Columns of 2^24 keys, the most that a chunk holds, and of more.

mod common;

use std::fs::{self, File};
use std::io::Write;
use std::process::{Command, Stdio};

use common::*;

const MOST_KEYS: u64 = 1 << 24;

/// A file of zeros that takes no room on the disk.
fn zeros(path: &str, bytes: u64) {
    File::create(path).unwrap().set_len(bytes).unwrap();
}

#[test]
fn a_column_of_the_most_keys_comes_back() {
    let folder = folder("most");
    let keys = no_file(&folder, "zeros.bin");
    zeros(&keys, 8 * MOST_KEYS);
    let chunk = format!("{keys}.wb");
    has(&run(&["pack", &keys]).succeeds().err, &["16,777,216 keys packed as BitPacked in 7 bytes"]);
    assert_eq!(fs::read(&chunk).unwrap(), [3, 1, 0x80, 0x80, 0x80, 0x08, 0]);
    let verdict = run(&["verify", &chunk, "--strict"]).succeeds().text();
    has(&verdict, &["accepted, read strictly: 16,777,216 keys, BitPacked, 7 bytes."]);
    has(&run(&["inspect", &chunk]).succeeds().text(), &["keys, as packed ZigZags  16,777,216: 0, 0, 0, 0, ..."]);
    let back = no_file(&folder, "back.bin");
    run(&["unpack", &chunk, "-o", &back]).succeeds();
    let back = fs::read(&back).unwrap();
    assert_eq!(back.len() as u64, 8 * MOST_KEYS);
    assert!(back.iter().all(|byte| *byte == 0));
    fs::remove_dir_all(&folder).unwrap();
}

#[test]
fn one_key_more_is_refused() {
    let folder = folder("more");
    let keys = no_file(&folder, "zeros.bin");
    zeros(&keys, 8 * MOST_KEYS + 8);
    let limit = "than the 16,777,216 that a chunk holds (refusal 21); split the column into parts";
    for command in ["plan", "pack", "stats"] {
        run(&[command, &keys]).fails(1, &["zeros.bin has 16,777,217 keys, more ", limit]);
    }
    assert_eq!(names(&folder), ["zeros.bin"]);
    let chunk = file(&folder, "more.wb", [5, 1, 0x81, 0x80, 0x80, 0x08, 0]);
    let verdict = run(&["verify", &chunk]);
    assert_eq!(verdict.status, 1);
    has(&verdict.text(), &["refused with 8 at offset 2: the header claims more than 16,777,216 keys."]);
}

/// The program ends although the input does not.
#[test]
fn keys_without_end_are_not_read_without_end() {
    for (format, key) in [("text", &b"7\n"[..]), ("csv", b"7\n"), ("binary", &[7; 8])] {
        let mut child = command(&["plan", "-", "--from", format])
            .stdin(Stdio::piped())
            .stdout(Stdio::piped())
            .stderr(Stdio::piped())
            .spawn()
            .unwrap();
        let mut stdin = child.stdin.take().unwrap();
        let piece = key.repeat(1 << 15);
        let writer = std::thread::spawn(move || while stdin.write_all(&piece).is_ok() {});
        let ran = Ran::of(child.wait_with_output().unwrap());
        writer.join().unwrap();
        ran.fails(1, &["standard input has more keys than the 16,777,216 that a chunk holds (refusal 21)"]);
    }
}

/// Runs with so much memory in kilobytes.
fn run_within(kilobytes: u32, arguments: &[&str]) -> Ran {
    let script = format!("ulimit -v {kilobytes}; exec \"$0\" \"$@\"");
    let output = Command::new("bash").args(["-c", &script, PROGRAM]).args(arguments).output().unwrap();
    Ran::of(output)
}

#[test]
fn too_little_memory_is_told() {
    let folder = folder("memory");
    let chunk = file(&folder, "zeros.wb", [3, 1, 0x80, 0x80, 0x80, 0x08, 0]);
    for command in ["verify", "inspect", "unpack"] {
        run_within(60_000, &[command, &chunk]).fails(1, &["not enough memory for the 16,777,216 keys of the chunk"]);
    }
    let keys = no_file(&folder, "zeros.bin");
    zeros(&keys, 80_000_000);
    run_within(60_000, &["stats", &keys]).fails(1, &["not enough memory for the keys of ", "zeros.bin"]);
    run_within(200_000, &["pack", &keys]).fails(1, &["not enough memory for a chunk of 10,000,000 keys"]);
    assert_eq!(names(&folder), ["zeros.bin", "zeros.wb"]);
}

#[test]
fn a_chunk_file_has_a_limit_too() {
    let folder = folder("long-chunk");
    let chunk = no_file(&folder, "zeros.wb");
    zeros(&chunk, (1 << 30) + 1);
    run(&["verify", &chunk]).fails(1, &["zeros.wb has more than 1,073,741,824 bytes"]);
}
