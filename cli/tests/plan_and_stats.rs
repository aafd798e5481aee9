//! `plan` and `stats`.

mod common;

use common::*;

#[test]
fn plan_shows_seven_lengths_and_the_choice() {
    // The sample sheet of the specification: four fives.
    let plan = run_with(&["plan", "-"], b"5\n5\n5\n5\n").succeeds().text();
    has(&plan, &["standard input: 4 keys, level 6", "chosen       BitPacked, 6 bytes"]);
    let lengths: Vec<&str> = plan.lines().skip(3).take(7).map(|line| line.split_whitespace().nth(1).unwrap()).collect();
    assert_eq!(lengths, ["35", "7", "6", "12", "6", "6", "8"], "{plan}");
    has(&plan, &["the shortest; it saves 82.85% of Plain, and level 6 asks for 5%", "0.2500 (1 run in 4 keys)"]);
    has(&plan, &["5.83 (Plain's 35 bytes by 6)", "as short     RunLength and Dictionary, but not read faster"]);
}

#[test]
fn plan_says_why_plain_is_kept() {
    let ends = b"-9223372036854775808\n9223372036854775807\n";
    let kept = run_with(&["plan", "-", "--level", "3"], ends).succeeds().text();
    has(&kept, &["Plain, 19 bytes", "DeltaBinaryPacked saves only 10.52% of Plain, and level 3 asks for 20%"]);
    let taken = run_with(&["plan", "-", "--level", "4"], ends).succeeds().text();
    has(&taken, &["DeltaBinaryPacked, 17 bytes", "and level 4 asks for 5%"]);
    let disabled = run_with(&["plan", "-", "--level=0"], b"5\n5\n").succeeds().text();
    has(&disabled, &["level 0 asks for no compression, so the column stays Plain"]);
    let empty = run_with(&["plan", "-"], b"").succeeds().text();
    has(&empty, &["0 keys", "there are no keys, so the column stays Plain", "Plain, 3 bytes"]);
}

#[test]
fn plan_says_why_an_encoding_is_not_available() {
    let one = run_with(&["plan", "-"], b"0\n").succeeds().text();
    has(&one, &["DeltaBinaryPacked  ", "unavailable: fewer than two keys", "chosen       BitPacked, 4 bytes"]);
    let many: Vec<i64> = (0..16_385).collect();
    let many = run_with(&["plan", "-"], lines(&many).as_bytes()).succeeds().text();
    has(&many, &["unavailable: over 16,384 distinct keys"]);
}

#[test]
fn bars_are_of_blocks_or_of_number_signs() {
    let file = sample("depot-keys.txt");
    has(&run(&["plan", &file]).succeeds().text(), &["████", "6.4%  █▌"]);
    let plain = command(&["plan", &file]).env("LC_ALL", "C").output().unwrap();
    let plain = Ran::of(plain).succeeds().text();
    has(&plain, &["####", "6.4%  ##"]);
    assert!(plain.is_ascii(), "{plain}");
}

#[test]
fn the_samples_are_planned_as_their_description_says() {
    for (column, choice) in [
        ("parcel", "DeltaBinaryPacked, 1,934 bytes"),
        ("depot", "Dictionary, 1,528 bytes"),
        ("street", "RunLength, 731 bytes"),
        ("delivered_at", "FrameOfReference, 6,013 bytes"),
    ] {
        let plan = run(&["plan", &sample("parcels.csv"), "--column", column]).succeeds().text();
        has(&plan, &[&format!("column {column}: 3,000 keys"), &format!("chosen       {choice}"), "24,004"]);
    }
    has(&run(&["plan", &sample("depot-keys.txt")]).succeeds().text(), &["chosen       Dictionary, 1,528 bytes"]);
}

#[test]
fn stats_tell_the_record_in_words() {
    let stats = run_with(&["stats", "-"], b"10\n10\n-3\n7\n").succeeds().text();
    let row = |what: &str| {
        let line = stats.lines().find(|line| line.trim_start().starts_with(what));
        line.unwrap_or_else(|| panic!("{what}:\n{stats}")).trim_start()[what.len()..].trim().to_string()
    };
    assert_eq!(row("first key"), "10");
    assert_eq!(row("least key"), "-3");
    assert_eq!(row("greatest key"), "10");
    assert_eq!(row("span "), "13 (4 bits)");
    assert_eq!(row("order"), "unsorted");
    assert_eq!(row("distinct keys"), "3: -3, 7, 10");
    assert_eq!(row("runs"), "3 (density 0.7500)");
    assert_eq!(row("greatest ZigZag"), "20 (5 bits)");
    assert_eq!(row("least delta"), "-13");
    assert_eq!(row("greatest delta"), "10");
    assert_eq!(row("span of deltas"), "23 (5 bits)");
    assert_eq!(row("varint body"), "4 bytes");
    assert_eq!(row("run-length body"), "6 bytes");
}

#[test]
fn stats_shorten_the_distinct_keys() {
    let ten: Vec<i64> = (1..=10).collect();
    let ten = run_with(&["stats", "-"], lines(&ten).as_bytes()).succeeds().text();
    has(&ten, &["10: 1, 2, 3, 4, 5, ...", "ascending"]);
    let many: Vec<i64> = (0..16_385).rev().collect();
    let many = run_with(&["stats", "-"], lines(&many).as_bytes()).succeeds().text();
    has(&many, &["16,385 or more", "descending"]);
    has(&run_with(&["stats", "-"], b"").succeeds().text(), &["0 keys", "constant", "distinct keys    0\n"]);
}

#[test]
fn stats_tell_nothing_of_what_is_not_there() {
    for (keys, dashes) in [(&b""[..], 8), (b"7\n", 3), (b"7\n8\n", 0)] {
        let stats = run_with(&["stats", "-"], keys).succeeds().text();
        assert_eq!(stats.lines().filter(|line| line.ends_with(" -")).count(), dashes, "{stats}");
    }
}
