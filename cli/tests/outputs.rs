//! Where output goes, and that what was there stays where something goes wrong.

mod common;

use std::fs::{self, File, OpenOptions, Permissions};
use std::io::Read;
use std::os::unix::fs::{symlink, MetadataExt, PermissionsExt};
use std::os::unix::process::CommandExt;
use std::process::{Command, Stdio};

use common::*;

#[test]
fn an_output_that_exists_is_replaced_only_if_it_is_named() {
    let folder = folder("exists");
    let keys = file(&folder, "keys.txt", "1\n2\n");
    let default = file(&folder, "keys.txt.wb", "old");
    run(&["pack", &keys]).fails(1, &["keys.txt.wb exists; give --force to replace it, or another output with -o OUT"]);
    assert_eq!(fs::read(&default).unwrap(), b"old");
    run(&["pack", &keys, "--force"]).succeeds();
    assert_eq!(run(&["unpack", &default]).succeeds().text(), "1\n2\n");
    fs::write(&default, "old").unwrap();
    run(&["pack", &keys, "-o", &default]).succeeds();
    assert_eq!(run(&["unpack", &default]).succeeds().text(), "1\n2\n");
    assert_eq!(names(&folder), ["keys.txt", "keys.txt.wb"]);
}

#[test]
fn the_input_may_be_the_output_where_it_is_forced() {
    let folder = folder("in-place");
    let keys = mixed_keys();
    let path = file(&folder, "keys.bin", binary(&keys));
    let link = no_file(&folder, "link.bin");
    symlink("keys.bin", &link).unwrap();
    let refusal = "is the input itself; give --force to replace it, or another output with -o OUT.";
    run(&["pack", &path, "-o", &path]).fails(1, &["keys.bin ", refusal]);
    run(&["pack", &path, "-o", &link]).fails(1, &["link.bin ", refusal]);
    let input = File::open(&path).unwrap();
    let ran = command(&["pack", "-", "--from", "binary", "-o", &path]).stdin(input).output().unwrap();
    Ran::of(ran).fails(1, &["keys.bin ", refusal]);
    assert_eq!(fs::read(&path).unwrap(), binary(&keys));
    run(&["pack", &path, "-o", &path, "--force"]).succeeds();
    run(&["verify", &path, "--strict"]).succeeds();
    run(&["unpack", &path, "-o", &path]).fails(1, &["keys.bin ", refusal]);
    run(&["unpack", &path, "-o", &path, "--force"]).succeeds();
    assert_eq!(fs::read(&path).unwrap(), binary(&keys));
    assert_eq!(names(&folder), ["keys.bin", "link.bin"]);
}

#[test]
fn a_replaced_file_keeps_its_permissions() {
    let folder = folder("permissions");
    let keys = file(&folder, "keys.txt", "1\n2\n");
    let out = file(&folder, "out.wb", "old");
    for mode in [0o640, 0o600, 0o666] {
        fs::set_permissions(&out, Permissions::from_mode(mode)).unwrap();
        run(&["pack", &keys, "-o", &out]).succeeds();
        assert_eq!(fs::metadata(&out).unwrap().permissions().mode() & 0o7777, mode);
    }
    fs::set_permissions(&out, Permissions::from_mode(0o444)).unwrap();
    run(&["pack", &keys, "-o", &out]).fails(1, &["out.wb is write-protected"]);
}

/// Only the superuser can run the program as others, so nobody else can test this.
#[test]
fn a_file_of_another_owner_is_not_opened_to_another_group() {
    let folder = folder("owners");
    let keys = file(&folder, "keys.txt", "1\n2\n");
    let out = file(&folder, "out.wb", "old");
    if fs::metadata(&keys).unwrap().uid() != 0 {
        return;
    }
    fs::set_permissions(&folder, Permissions::from_mode(0o777)).unwrap();
    fs::set_permissions(&out, Permissions::from_mode(0o666)).unwrap();
    for (group, wanted) in [(0, (0, 0o666)), (65_534, (65_534, 0o600))] {
        let ran = command(&["pack", &keys, "-o", &out]).uid(65_534).gid(group).output().unwrap();
        Ran::of(ran).succeeds();
        let metadata = fs::metadata(&out).unwrap();
        assert_eq!((metadata.gid(), metadata.mode() & 0o7777), wanted);
        std::os::unix::fs::chown(&out, Some(0), Some(0)).unwrap();
    }
}

#[test]
fn a_link_stays_and_the_file_behind_it_is_replaced() {
    let folder = folder("links");
    let keys = file(&folder, "keys.txt", "1\n2\n");
    let real = file(&folder, "real.wb", "old");
    let link = no_file(&folder, "link.wb");
    symlink("real.wb", &link).unwrap();
    run(&["pack", &keys, "-o", &link]).succeeds();
    assert!(fs::symlink_metadata(&link).unwrap().is_symlink());
    assert_eq!(run(&["unpack", &real]).succeeds().text(), "1\n2\n");
    fs::remove_file(&real).unwrap();
    run(&["pack", &keys, "-o", &link]).fails(1, &["link.wb is a link that leads nowhere"]);
}

#[test]
fn what_cannot_be_written_leaves_what_was_there() {
    let folder = folder("failures");
    let bad = file(&folder, "bad.txt", "1\nx\n");
    let old = file(&folder, "old.wb", "old");
    run(&["pack", &bad, "-o", &old]).fails(1, &["bad.txt, line 2"]);
    let keys = file(&folder, "keys.bin", binary(&[7; 4000]));
    // A limit on the size of files, as a disk that is full.
    let script = "trap '' XFSZ; ulimit -f 1; exec \"$0\" pack \"$1\" --encoding Plain -o \"$2\"";
    let limited = Command::new("bash").args(["-c", script, PROGRAM, &keys, &old]).output().unwrap();
    Ran::of(limited).fails(1, &["old.wb cannot be written: File too large"]);
    assert_eq!(fs::read(&old).unwrap(), b"old");
    assert_eq!(names(&folder), ["bad.txt", "keys.bin", "old.wb"]);
    run(&["pack", &keys, "-o", folder.to_str().unwrap()]).fails(1, &["failures is a folder; give the name of a file"]);
    run(&["pack", &keys, "-o", &no_file(&folder, "no/out.wb")])
        .fails(1, &["no/out.wb cannot be written: there is no such folder"]);
    run(&["pack", &keys, "-o", ""]).fails(2, &["empty file name"]);
}

#[test]
fn a_full_device_is_told() {
    let folder = folder("full");
    let keys = file(&folder, "keys.txt", "1\n2\n");
    run(&["pack", &keys]).succeeds();
    let chunk = format!("{keys}.wb");
    let full = "cannot be written: No space left on device";
    run(&["pack", &keys, "-o", "/dev/full"]).fails(1, &["/dev/full", full]);
    run(&["unpack", &chunk, "-o", "/dev/full"]).fails(1, &["/dev/full", full]);
    for arguments in [
        &["pack", &keys, "-o", "-"][..],
        &["pack", &keys, "-o", "/dev/stdout"],
        &["unpack", &chunk],
        &["unpack", &chunk, "--to", "binary"],
        &["plan", &keys],
        &["stats", &keys],
        &["inspect", &chunk],
        &["verify", &chunk],
        &["help"],
        &["--version"],
    ] {
        let device = OpenOptions::new().write(true).open("/dev/full").unwrap();
        let output = command(arguments).stdout(device).output().unwrap();
        Ran::of(output).fails(1, &["standard output", full]);
    }
}

#[test]
fn devices_and_pipes_are_written_as_they_are() {
    let folder = folder("devices");
    let keys = file(&folder, "keys.txt", "1\n2\n");
    run(&["pack", &keys, "-o", "/dev/null"]).succeeds();
    let pipe = no_file(&folder, "pipe");
    assert!(Command::new("mkfifo").arg(&pipe).status().unwrap().success());
    let writer = command(&["pack", &keys, "-o", &pipe]).stderr(Stdio::null()).spawn().unwrap();
    let mut chunk = Vec::new();
    File::open(&pipe).unwrap().read_to_end(&mut chunk).unwrap();
    Ran::of(writer.wait_with_output().unwrap()).succeeds();
    assert_eq!(run_with(&["unpack", "-"], &chunk).succeeds().text(), "1\n2\n");
    assert_eq!(names(&folder), ["keys.txt", "pipe"]);
}

#[test]
fn a_file_that_standard_output_is_appended_to_keeps_its_front() {
    let folder = folder("append");
    let keys = file(&folder, "keys.txt", "1\n2\n");
    let chunk = run(&["pack", &keys, "-o", "-"]).succeeds().out;
    for out in ["/dev/stdout", "/dev/fd/1", "/proc/self/fd/1", "-"] {
        let log = file(&folder, "log", "front\n");
        let appended = OpenOptions::new().append(true).open(&log).unwrap();
        Ran::of(command(&["pack", &keys, "-o", out]).stdout(appended).output().unwrap()).succeeds();
        assert_eq!(fs::read(&log).unwrap(), [b"front\n", &chunk[..]].concat(), "{out}");
    }
}

#[test]
fn a_file_behind_standard_error_or_a_link_to_a_stream_keeps_its_front() {
    let folder = folder("append-by-link");
    let keys = file(&folder, "keys.txt", "1\n2\n");
    let chunk = run(&["pack", &keys, "-o", "-"]).succeeds().out;
    let front = [b"front\n", &chunk[..]].concat();
    let link = no_file(&folder, "out.lnk");
    symlink("/dev/stdout", &link).unwrap();
    let log = file(&folder, "log", "front\n");
    let appended = || OpenOptions::new().append(true).open(&log).unwrap();
    Ran::of(command(&["pack", &keys, "-o", &link]).stdout(appended()).output().unwrap()).succeeds();
    assert_eq!(fs::read(&log).unwrap(), front);
    fs::write(&log, "front\n").unwrap();
    Ran::of(command(&["pack", &keys, "-o", "/dev/stderr"]).stderr(appended()).output().unwrap()).succeeds();
    assert!(fs::read(&log).unwrap().starts_with(&front));
    // A stream that is not appended to has a place of its own, at which the summary must not be written over the chunk.
    let begun = File::create(&log).unwrap();
    Ran::of(command(&["pack", &keys, "-o", "/dev/stderr"]).stderr(begun).output().unwrap()).succeeds();
    assert!(fs::read(&log).unwrap().starts_with(&chunk));
}

#[test]
fn a_standard_output_that_is_not_open_for_writing_is_told() {
    let folder = folder("read-only");
    let keys = file(&folder, "keys.txt", "1\n2\n");
    let output = command(&["pack", &keys, "-o", "-"]).stdout(File::open(&keys).unwrap()).output().unwrap();
    Ran::of(output).fails(1, &["standard output cannot be written: Bad file descriptor"]);
}

#[test]
fn a_closed_pipe_is_an_end_for_text_and_a_failure_for_bytes() {
    let folder = folder("closed-pipe");
    let keys: Vec<i64> = (0..100_000).collect();
    let path = file(&folder, "keys.bin", binary(&keys));
    run(&["pack", &path]).succeeds();
    let chunk = format!("{path}.wb");
    let closed = "warpboulder: standard output was closed before all was written.\n";
    for (arguments, end) in [
        (&["unpack", &chunk][..], (0, "")),
        (&["unpack", &chunk, "--to", "binary"], (1, closed)),
        (&["pack", &path, "--encoding", "Plain", "-o", "-"], (1, closed)),
    ] {
        let mut child = command(arguments).stdout(Stdio::piped()).stderr(Stdio::piped()).spawn().unwrap();
        let mut some = [0; 100];
        child.stdout.take().unwrap().read_exact(&mut some).unwrap();
        let ran = Ran::of(child.wait_with_output().unwrap());
        assert_eq!((ran.status, ran.err.as_str()), end, "{arguments:?}");
    }
    let pipe = no_file(&folder, "pipe");
    assert!(Command::new("mkfifo").arg(&pipe).status().unwrap().success());
    for arguments in [&["unpack", &chunk, "-o", &pipe][..], &["pack", &path, "--encoding", "Plain", "-o", &pipe]] {
        let writer = command(arguments).stdout(Stdio::piped()).stderr(Stdio::piped()).spawn().unwrap();
        File::open(&pipe).unwrap().read_exact(&mut [0]).unwrap();
        Ran::of(writer.wait_with_output().unwrap()).fails(1, &["pipe was closed before all was written."]);
    }
}

#[test]
fn a_closed_pipe_does_not_hide_that_a_chunk_is_refused() {
    for command_name in ["verify", "inspect"] {
        let mut child = command(&[command_name, "-"])
            .stdin(Stdio::piped())
            .stdout(Stdio::piped())
            .stderr(Stdio::piped())
            .spawn()
            .unwrap();
        // Nobody reads, and only then is there something to say.
        drop(child.stdout.take());
        drop(child.stdin.take());
        let ran = Ran::of(child.wait_with_output().unwrap());
        assert_eq!((ran.status, ran.err.as_str()), (1, ""), "{command_name}");
    }
}

#[test]
fn messages_that_cannot_be_written_change_nothing() {
    let folder = folder("no-messages");
    let keys = file(&folder, "keys.txt", "1\n2\n");
    let full = || OpenOptions::new().write(true).open("/dev/full").unwrap();
    let packed = command(&["pack", &keys]).stderr(full()).output().unwrap();
    assert_eq!(packed.status.code(), Some(0));
    assert_eq!(run(&["unpack", &format!("{keys}.wb")]).succeeds().text(), "1\n2\n");
    let failed = command(&["plan", "absent"]).stderr(full()).output().unwrap();
    assert_eq!(failed.status.code(), Some(1));
}
