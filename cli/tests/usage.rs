//! Help, and command lines that cannot be followed.

mod common;

use common::*;

const COMMANDS: [&str; 6] = ["plan", "pack", "unpack", "inspect", "verify", "stats"];

#[test]
fn help_is_told_on_standard_output() {
    for words in [&["help"][..], &["--help"], &["-h"]] {
        let help = run(words).succeeds();
        assert!(help.err.is_empty());
        has(&help.text(), &COMMANDS.map(|command| format!("\n  {command} ")).each_ref().map(String::as_str));
        has(&help.text(), &["Exit status: 0 done, 1 refused or failed, 2 wrong usage."]);
    }
    for command in COMMANDS {
        let help = run(&[command, "--help"]).succeeds().text();
        has(&help, &[&format!("warpboulder {command} "), "--help"]);
        assert_eq!(run(&["help", command]).succeeds().text(), help);
        assert_eq!(run(&[command, "-h", "some-file"]).succeeds().text(), help);
    }
}

#[test]
fn the_version_is_told() {
    let version = format!("warpboulder {}\n", env!("CARGO_PKG_VERSION"));
    assert_eq!(run(&["--version"]).succeeds().text(), version);
    assert_eq!(run(&["-V"]).succeeds().text(), version);
}

#[test]
fn wrong_usage_says_what_would_be_right() {
    for (words, parts) in [
        (&[][..], &["give a command: plan, pack, unpack, inspect, verify, stats or help."][..]),
        (&["pakc", "a"], &["there is no command \"pakc\"", "plan, pack, unpack"]),
        (&["help", "pakc"], &["there is no command \"pakc\""]),
        (&["help", "plan", "pack"], &["help takes one command"]),
        (&["plan"], &["plan needs a FILE of keys", "'warpboulder plan --help' tells more"]),
        (&["verify"], &["verify needs a CHUNK"]),
        (&["plan", "a", "b"], &["plan takes one file, but \"a\" and \"b\" were given"]),
        (
            &["plan", "a", "--strict"],
            &["plan has no option \"--strict\"; its options are --level, --from, --column, --header and -h"],
        ),
        (&["plan", "a", "--level"], &["--level needs a value: a number from 0 to 9"]),
        (&["plan", "a", "--level", "10"], &["--level takes a number from 0 to 9, not \"10\""]),
        (&["plan", "a", "--level", "1", "--level", "2"], &["--level is given twice"]),
        (&["plan", "a", "--from", "json"], &["--from takes text, csv or binary, not \"json\""]),
        (&["plan", "a", "--from", "text", "--column", "b"], &["--column is for CSV files"]),
        (&["plan", "a", "--from", "text", "--header", "no"], &["--header is for CSV files"]),
        (&["plan", "a", "--header", "maybe"], &["--header takes yes or no, not \"maybe\""]),
        (&["plan", "a", "--header", "no", "--column", "b"], &["without a header no column has a name"]),
        (&["pack", "a", "--encoding", "zip"], &["--encoding takes Plain, Varint, BitPacked,", "not \"zip\""]),
        (&["unpack", "a", "--to", "csv"], &["--to takes text or binary, not \"csv\""]),
        (&["unpack", "a", "--strict=yes"], &["--strict takes no value"]),
        (&["inspect", "a", "--x\u{1b}[31m"], &["inspect has no option \"--x\\u{1b}[31m\""]),
    ] {
        run(words).fails(2, parts);
    }
}

#[test]
fn a_name_that_begins_with_a_dash_stands_behind_two() {
    let folder = folder("dashes");
    file(&folder, "--keys", "1\n2\n");
    let output = command(&["stats", "--", "--keys"]).current_dir(&folder).output().unwrap();
    has(&Ran::of(output).succeeds().text(), &["--keys: 2 keys"]);
}
