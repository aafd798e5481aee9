//! Keys in text, CSV and binary, and what is wrong with them.

mod common;

use common::*;

/// The keys that the program reads: what it packs, it unpacks as text.
#[track_caller]
fn keys_of(path: &str, options: &[&str]) -> String {
    let arguments = [&["pack", path, "-o", "-"], options].concat();
    let packed = run(&arguments).succeeds();
    run_with(&["unpack", "-"], &packed.out).succeeds().text()
}

#[test]
fn text_has_one_key_a_line() {
    let folder = folder("text");
    let contents = "\u{FEFF}# depots\r\n5\r\n\r\n  -7 \r\n+8\n\t\n# end\n9223372036854775807\n-9223372036854775808";
    let path = file(&folder, "keys.txt", contents);
    assert_eq!(keys_of(&path, &[]), "5\n-7\n8\n9223372036854775807\n-9223372036854775808\n");
}

#[test]
fn a_bad_line_is_named_with_its_column() {
    let folder = folder("bad-text");
    for (contents, parts) in [
        ("1\n2x4\n", &["bad.txt, line 2, column 2: \"2x4\" is not a whole number."][..]),
        ("1\n\n  abc\n", &["line 3, column 3: \"abc\" is not a whole number."]),
        ("1.5\n", &["line 1, column 2: \"1.5\" is not a whole number."]),
        ("9223372036854775808\n", &["line 1, column 1", "is beyond 64 bits", "9,223,372,036,854,775,807"]),
        ("-99999999999999999999\n", &["line 1", "is beyond 64 bits"]),
        ("1,2\n", &["line 1, column 2", "for a CSV file give --from csv and --column NAME"]),
        ("\x07\x01\x02\n", &["line 1, column 1: this is not text", "give --from binary, and unpack a chunk first"]),
    ] {
        run(&["plan", &file(&folder, "bad.txt", contents)]).fails(1, parts);
    }
    let long = "9".repeat(500) + "x\n";
    let ran = run(&["plan", &file(&folder, "bad.txt", &long)]);
    assert!(ran.err.len() < 300, "{}", ran.err);
    ran.fails(1, &["line 1, column 501", "9999...\" is not a whole number"]);
}

#[test]
fn a_file_without_line_ends_is_not_read_whole() {
    let folder = folder("no-line-ends");
    let path = file(&folder, "zeros.txt", vec![b'0'; 3 << 20]);
    run(&["plan", &path]).fails(1, &["line 1: it has 1,048,576 bytes or more"]);
    let path = file(&folder, "quote.csv", "a,b\n1,2\n1,\"".to_string() + &"x\n".repeat(1 << 20));
    run(&["plan", &path, "--column", "a"]).fails(1, &["line 3: the row has 1,048,576 bytes or more"]);
}

const PARCELS: &str = "parcel,depot,\"street, key\"\r\n1,10,\"100\"\r\n\r\n2,20, 200 \r\n3,30,\"300\"\r\n";

#[test]
fn a_csv_column_is_read_by_name_or_number() {
    let folder = folder("csv");
    let path = file(&folder, "parcels.csv", PARCELS);
    assert_eq!(keys_of(&path, &["--column", "depot"]), "10\n20\n30\n");
    assert_eq!(keys_of(&path, &["--column", "street, key"]), "100\n200\n300\n");
    assert_eq!(keys_of(&path, &["--column", "3"]), "100\n200\n300\n");
    has(&run(&["stats", &path, "--column", "2"]).succeeds().text(), &["parcels.csv, column depot: 3 keys"]);
}

#[test]
fn the_header_line_is_one_if_it_is_no_number() {
    let folder = folder("header");
    let path = file(&folder, "bare.csv", "1,10\n2,20\n");
    assert_eq!(keys_of(&path, &["--column", "2"]), "10\n20\n");
    let path = file(&folder, "single.csv", "key\n7\n8\n");
    assert_eq!(keys_of(&path, &[]), "7\n8\n");
    let path = file(&folder, "named-by-number.csv", "10,20\n1,2\n");
    assert_eq!(keys_of(&path, &["--column", "1"]), "10\n1\n");
    let path = file(&folder, "lines.csv", "\"a\nb\",k\n\"x\r\ny\",5\n");
    assert_eq!(keys_of(&path, &["--column", "k"]), "5\n");
}

#[test]
fn a_bad_first_row_is_not_taken_for_a_header() {
    let folder = folder("bad-first-row");
    for (contents, column, parts) in [
        ("12x\n13\n14\n", "1", &["bad.csv, line 1, column 1: \"12x\" is not a whole number."][..]),
        ("1.5\n2\n", "1", &["line 1, column 1: \"1.5\" is not a whole number."]),
        ("1e5\n2\n", "1", &["line 1, column 1: \"1e5\" is not a whole number."]),
        ("\u{2212}7\n2\n", "1", &["line 1, column 1: \"\u{2212}7\" is not a whole number."]),
        (",5\n3,4\n6,7\n", "1", &["line 1, column 1: there is no key, the field is empty."]),
        (",0.5\n3,4\n", "1", &["line 1, column 1: there is no key, the field is empty."]),
        ("99999999999999999999\n2\n", "1", &["line 1, column 1", "is beyond 64 bits"]),
        ("depot,1.5\nx,2\n", "2", &["line 1, column 2: \"1.5\" is not a whole number."]),
    ] {
        run(&["plan", &file(&folder, "bad.csv", contents), "--column", column]).fails(1, parts);
    }
    let path = file(&folder, "bad.csv", "key\n5\n");
    run(&["plan", &path, "--header", "no"]).fails(1, &["line 1, column 1: \"key\" is not a whole number."]);
}

#[test]
fn a_header_is_a_name_or_what_is_told() {
    let folder = folder("told-header");
    for (contents, options, keys) in [
        ("id,\u{e4}nderung\n1,5\n", &["--column", "2"][..], "5\n"),
        ("_id\n5\n", &[], "5\n"),
        (",name\n5,x\n", &["--column", "1"], "5\n"),
        ("12x\n13\n", &["--header", "yes"], "13\n"),
        ("id,2019,2020\n1,5,6\n2,7,8\n", &["--column", "2", "--header", "yes"], "5\n7\n"),
        ("x,2019\ny,5\n", &["--column", "2", "--header", "no"], "2019\n5\n"),
        ("2019,2020\n1,5\n", &["--column", "2", "--header", "yes"], "5\n"),
    ] {
        assert_eq!(keys_of(&file(&folder, "keys.csv", contents), options), keys, "{contents}");
    }
    let path = file(&folder, "years.csv", "id,2019,2020\n1,5,6\n2,7,8\n");
    run(&["pack", &path, "--column", "2", "-o", "-"])
        .fails(2, &["years.csv, line 1: column 2 has a number there", "give --header yes or --header no."]);
    has(&run(&["stats", &sample("parcels.csv"), "--column", "2"]).succeeds().text(), &["column depot: 3,000 keys"]);
}

#[test]
fn a_bad_csv_field_is_named_with_its_line_and_column() {
    let folder = folder("bad-csv");
    for (contents, parts) in [
        ("id,depot\n1,10\n2,1o\n", &["bad.csv, line 3, column depot: \"1o\" is not a whole number."][..]),
        ("id,depot\n1,\n", &["line 2, column depot: there is no key, the field is empty."]),
        ("id,depot\n1,10\n2\n", &["bad.csv, line 3: it has 1 field, and the first row has 2."]),
        ("id,depot\n\n1,10,5\n", &["bad.csv, line 3: it has 3 fields, and the first row has 2."]),
        ("id,depot\n1,2,345\n", &["bad.csv, line 2: it has 3 fields, and the first row has 2."]),
        ("id,depot\n1,99999999999999999999\n", &["line 2, column depot", "is beyond 64 bits"]),
        ("id,depot\n\"1\"2,5\n", &["line 2: after a closing quotation mark only a comma may follow."]),
        ("id,depot\n1,\"5\n2,6\n", &["line 2: a quotation mark in this row is not closed."]),
        ("id,depot\n\"a\nb\",x\n", &["line 2, column depot: \"x\" is not a whole number."]),
    ] {
        run(&["plan", &file(&folder, "bad.csv", contents), "--column", "depot"]).fails(1, parts);
    }
}

#[test]
fn a_column_that_is_not_there_is_told_with_those_that_are() {
    let folder = folder("no-column");
    let path = file(&folder, "parcels.csv", PARCELS);
    let there = "parcel, depot and street, key";
    run(&["plan", &path, "--column", "depots"]).fails(1, &["no column named \"depots\"", there]);
    run(&["plan", &path, "--column", "4"]).fails(1, &["has 3 columns and so no column 4", there]);
    run(&["plan", &path]).fails(2, &["has 3 columns; say which one with --column NAME or --column NUMBER", there]);
    run(&["plan", &path, "--column", "0"]).fails(2, &["from 1"]);
    let path = file(&folder, "twice.csv", "a,b,a\n1,2,3\n");
    run(&["plan", &path, "--column", "a"]).fails(1, &["more than one column named \"a\"", "--column 1 or --column 3"]);
    let path = file(&folder, "empty.csv", "");
    run(&["plan", &path, "--column", "a"]).fails(1, &["no column named \"a\"", "is empty"]);
    run(&["plan", &path, "--column", "1"]).succeeds();
}

#[test]
fn binary_keys_have_eight_bytes() {
    let folder = folder("binary");
    let keys = mixed_keys();
    assert_eq!(keys_of(&file(&folder, "keys.bin", binary(&keys)), &[]), lines(&keys));
    assert_eq!(keys_of(&file(&folder, "keys.i64", binary(&keys)), &[]), lines(&keys));
    assert_eq!(keys_of(&file(&folder, "keys.dat", binary(&keys)), &["--from", "binary"]), lines(&keys));
    let path = file(&folder, "odd.bin", [0; 13]);
    run(&["plan", &path]).fails(1, &["odd.bin has 13 bytes, which is no multiple of 8"]);
    run_with(&["plan", "-", "--from", "binary"], &[0; 13]).fails(1, &["standard input has 13 bytes"]);
}

#[test]
fn keys_come_from_standard_input() {
    has(&run_with(&["stats", "-"], b"1\n2\n").succeeds().text(), &["standard input: 2 keys"]);
    let csv = run_with(&["stats", "-", "--column", "depot"], PARCELS.as_bytes()).succeeds().text();
    has(&csv, &["standard input, column depot: 3 keys"]);
    let binary = run_with(&["stats", "-", "--from", "binary"], &binary(&[1, 2, 3])).succeeds().text();
    has(&binary, &["standard input: 3 keys"]);
    run_with(&["stats", "-"], PARCELS.as_bytes()).fails(1, &["standard input, line 1, column 1", "--from csv"]);
}

#[test]
fn a_file_that_cannot_be_read_is_told() {
    let folder = folder("no-file");
    run(&["plan", &no_file(&folder, "absent.txt")]).fails(1, &["there is no file ", "absent.txt"]);
    run(&["plan", folder.to_str().unwrap()]).fails(1, &["no-file is a folder; give a file"]);
    let inside = file(&folder, "file.txt", "1\n") + "/inside";
    run(&["plan", &inside]).fails(1, &["inside cannot be opened: Not a directory"]);
}
