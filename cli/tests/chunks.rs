//! `pack`, `unpack`, `inspect` and `verify`.

mod common;

use std::fs;

use common::*;

const ENCODINGS: [&str; 7] =
    ["Plain", "Varint", "BitPacked", "FrameOfReference", "RunLength", "Dictionary", "DeltaBinaryPacked"];

/// Four fives in a dictionary, as the sample sheet of the specification has them.
const FIVES: [u8; 6] = [0x06, 0x01, 0x04, 0x01, 0x0A, 0x00];

#[test]
fn keys_come_back_from_files_of_every_format() {
    let folder = folder("round-trips");
    let keys = mixed_keys();
    let csv: String = keys.iter().map(|key| format!("x,{key}\n")).collect();
    let text = file(&folder, "a.txt", lines(&keys));
    let csv = file(&folder, "b.csv", "name,key\n".to_string() + &csv);
    let bytes = file(&folder, "c.bin", binary(&keys));
    for (path, options) in [(&text, &[][..]), (&csv, &["--column", "key"]), (&bytes, &[])] {
        let chunk = format!("{path}.wb");
        let packed = run(&[&["pack", path], options].concat()).succeeds();
        assert!(packed.out.is_empty());
        has(&packed.err, &["505 keys packed as ", " bytes (", " of Plain, ratio ", &format!(" to {chunk}")]);
        assert_eq!(run(&["unpack", &chunk, "--strict"]).succeeds().text(), lines(&keys));
        let back = no_file(&folder, "back.bin");
        has(&run(&["unpack", &chunk, "-o", &back]).succeeds().err, &["505 keys unpacked to ", "back.bin"]);
        assert_eq!(fs::read(&back).unwrap(), binary(&keys));
        let back = no_file(&folder, "back.txt");
        run(&["unpack", &chunk, "-o", &back]).succeeds();
        assert_eq!(fs::read_to_string(&back).unwrap(), lines(&keys));
    }
}

#[test]
fn every_encoding_can_be_named() {
    let keys = mixed_keys();
    for encoding in ENCODINGS {
        let packed = run_with(&["pack", "-", "--encoding", encoding], lines(&keys).as_bytes()).succeeds();
        has(&packed.err, &[&format!("505 keys packed as {encoding} in ")]);
        let back = run_with(&["unpack", "-", "--encoding", encoding, "--strict"], &packed.out).succeeds();
        assert_eq!(back.text(), lines(&keys));
        let other = if encoding == "Plain" { "Varint" } else { "Plain" };
        run_with(&["unpack", "-", "--encoding", other], &packed.out)
            .fails(1, &["standard input is refused", "(refusal 4 at offset 0)"]);
    }
    let packed = run_with(&["pack", "-", "--encoding", "dictionary"], b"5\n5\n5\n5\n").succeeds();
    assert_eq!(packed.out, FIVES);
}

#[test]
fn pack_plans_at_the_level_that_is_told() {
    let ends = b"-9223372036854775808\n9223372036854775807\n";
    has(&run_with(&["pack", "-"], ends).succeeds().err, &["packed as DeltaBinaryPacked in 17 bytes"]);
    has(&run_with(&["pack", "-", "--level", "3"], ends).succeeds().err, &["packed as Plain in 19 bytes"]);
    run_with(&["pack", "-", "--level", "3", "--encoding", "Plain"], ends).fails(2, &["give one of them"]);
    let many: Vec<i64> = (0..16_385).collect();
    run_with(&["pack", "-", "--encoding", "Dictionary"], lines(&many).as_bytes())
        .fails(1, &["standard input is refused", "more than 16,384 distinct keys", "(refusal 23 at offset 0)"]);
}

#[test]
fn the_empty_column_has_a_chunk() {
    let folder = folder("empty");
    let path = file(&folder, "empty.txt", "");
    run(&["pack", &path]).succeeds();
    let chunk = format!("{path}.wb");
    assert_eq!(fs::read(&chunk).unwrap(), [0x01, 0x01, 0x00]);
    assert_eq!(run(&["unpack", &chunk]).succeeds().text(), "");
    has(&run(&["verify", &chunk]).succeeds().text(), &["accepted: 0 keys, Plain, 3 bytes."]);
    run(&["unpack", &path]).fails(1, &["empty.txt is refused", "(refusal 1 at offset 0)"]);
}

#[test]
fn verify_says_what_is_accepted_and_why_not() {
    let folder = folder("verify");
    let chunk = file(&folder, "fives.wb", FIVES);
    has(&run(&["verify", &chunk]).succeeds().text(), &["fives.wb: accepted: 4 keys, Dictionary, 6 bytes.\n"]);
    has(&run(&["verify", &chunk, "--strict"]).succeeds().text(), &["accepted, read strictly: 4 keys"]);
    has(&run(&["verify", &chunk, "--encoding", "dictionary"]).succeeds().text(), &["accepted"]);
    let other = run(&["verify", &chunk, "--encoding", "plain"]);
    assert_eq!((other.status, other.err.as_str()), (1, ""));
    has(&other.text(), &["fives.wb: refused with 4 at offset 0: the chunk is in another encoding than the one named."]);
    let cut = run_with(&["verify", "-"], &FIVES[..5]);
    assert_eq!((cut.status, cut.err.as_str()), (1, ""));
    has(&cut.text(), &["standard input: refused with 10 at offset 5: the width byte is missing."]);
}

#[test]
fn bytes_after_the_body_and_padded_varints_are_refused_strictly_alone() {
    let folder = folder("strict");
    for (name, bytes, refusal) in [
        ("after.wb", &[1, 1, 0, 9][..], "26 at offset 3: bytes follow the body of the chunk"),
        ("padded.wb", &[1, 1, 0x80, 0], "25 at offset 2: a varint is longer than it needs to be"),
    ] {
        let chunk = file(&folder, name, bytes);
        let lax = run(&["verify", &chunk]).succeeds().text();
        has(&lax, &["accepted: 0 keys, Plain, 4 bytes.\nRead strictly, it is refused with ", refusal]);
        let strict = run(&["verify", &chunk, "--strict"]);
        assert_eq!(strict.status, 1);
        has(&strict.text(), &["refused with ", refusal]);
        run(&["unpack", &chunk]).succeeds();
        run(&["unpack", &chunk, "--strict"]).fails(1, &["is refused"]);
        has(&run(&["inspect", &chunk]).succeeds().text(), &["The chunk is accepted. Read strictly, it is", refusal]);
    }
}

#[test]
fn a_refused_chunk_writes_no_key() {
    let folder = folder("refused");
    let chunk = file(&folder, "cut.wb", &FIVES[..4]);
    let out = no_file(&folder, "keys.txt");
    run(&["unpack", &chunk, "-o", &out]).fails(1, &["cut.wb is refused", "(refusal 17 at offset 4)"]);
    assert_eq!(names(&folder), ["cut.wb"]);
}

/// The rows of a byte map: offset, length, what and value, with one space between.
fn map_of(chunk: &[u8]) -> Vec<String> {
    let ran = run_with(&["inspect", "-"], chunk);
    let text = ran.text();
    assert!(ran.err.is_empty(), "{}", ran.err);
    let rows = text.lines().skip(3).take_while(|line| !line.is_empty());
    rows.map(|line| line.split_whitespace().collect::<Vec<_>>().join(" ")).collect()
}

fn packed(keys: &[i64], encoding: &str) -> Vec<u8> {
    run_with(&["pack", "-", "--encoding", encoding], lines(keys).as_bytes()).succeeds().out
}

/// The bodies of the column 5, 5, 9, -1, 300.
const BODIES: [&[&str]; 7] = [
    &["3 40 keys 5: 5, 5, 9, -1, ..."],
    &["3 6 keys 5: 5, 5, 9, -1, ..."],
    &["3 1 width 10 bits", "4 7 keys, as packed ZigZags 5: 5, 5, 9, -1, ..."],
    &["3 8 least key -1", "11 1 width 9 bits", "12 6 keys, as packed differences 5: 5, 5, 9, -1, ..."],
    &["3 1 runs 4", "4 2 run 1 5, 2 times", "6 2 run 2 9, 1 time", "8 2 run 3 -1, 1 time", "10 3 run 4 300, 1 time"],
    &[
        "3 1 entries 4",
        "4 1 first entry -1",
        "5 4 gaps 3: 4 to 291",
        "9 1 width 2 bits",
        "10 2 packed codes 5: 1, 1, 2, 0, ...",
    ],
    &["3 1 first key 5", "4 2 block size 128", "6 7 block 1 4 deltas: least -10, width 9, 5 packed bytes"],
];

#[test]
fn inspect_maps_the_bytes_of_every_encoding() {
    for (id, (encoding, body)) in ENCODINGS.into_iter().zip(BODIES).enumerate() {
        let map = map_of(&packed(&[5, 5, 9, -1, 300], encoding));
        assert_eq!(map[..3], [format!("0 1 id {} {encoding}", id + 1), "1 1 version 1".into(), "2 1 count 5".into()]);
        assert_eq!(map[3..], *body, "{encoding}");
    }
}

#[test]
fn inspect_abridges_what_is_long() {
    let rising: Vec<i64> = (0..2000).map(|index| index * index).collect();
    let map = map_of(&packed(&rising, "DeltaBinaryPacked")).join("\n");
    has(&map, &["block 4 128 deltas", "... 9 more blocks", "block 14 128 deltas", "block 16 79 deltas"]);
    let map = map_of(&packed(&rising, "RunLength")).join("\n");
    has(&map, &["run 4 9, 1 time", "... 1,993 more runs", "run 1,998 3988009, 1 time", "run 2,000 3996001, 1 time"]);
}

#[test]
fn inspect_shows_a_refused_chunk_as_far_as_it_goes() {
    let cut = [&[6, 1, 4, 2, 10, 1, 1][..], &[]].concat();
    let ran = run_with(&["inspect", "-"], &cut);
    assert_eq!(ran.status, 1);
    has(&ran.text(), &["packed codes  1 byte needed, 0 there", "The chunk is refused with 13 at offset 0"]);
    let ran = run_with(&["inspect", "-"], &[6, 1, 4, 2, 10, 1, 1, 0, 7]);
    assert_eq!(ran.status, 0);
    has(&ran.text(), &["after the body  1 byte (strict reading refuses them)"]);
    let ran = run_with(&["inspect", "-"], &[5, 1, 4, 1, 10, 2, 7]);
    has(&ran.text(), &["after the body  1 byte\n", "The chunk is refused with 16"]);
    let ran = run_with(&["inspect", "-"], &[9, 1, 4]);
    assert_eq!(ran.status, 1);
    has(&ran.text(), &["id        9 which is no encoding of keys", "not read  2 bytes", "refused with 2 at offset 0"]);
    let ran = run_with(&["inspect", "-"], &[]);
    assert_eq!(ran.status, 1);
    has(&ran.text(), &["standard input: 0 bytes", "id    missing", "refused with 1 at offset 0"]);
}

#[test]
fn a_chunk_that_cannot_be_read_is_told() {
    let folder = folder("no-chunk");
    for command in ["unpack", "inspect", "verify"] {
        run(&[command, &no_file(&folder, "absent.wb")]).fails(1, &["there is no file ", "absent.wb"]);
        run(&[command, folder.to_str().unwrap()]).fails(1, &["is a folder"]);
    }
}
