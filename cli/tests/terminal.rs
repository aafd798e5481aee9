//! What is different on a terminal, which `script` gives.

mod common;

use std::process::{Command, Stdio};

use common::*;

/// Runs a shell line in which `$0` is the program, with standard input, output and error on a terminal. What the terminal shows is
/// the output.
fn on_terminal(line: &str, variables: &[(&str, &str)]) -> Ran {
    let line = line.replace("$0", &format!("'{PROGRAM}'"));
    let mut command = Command::new("script");
    command.args(["-qec", &line, "/dev/null"]).stdin(Stdio::null());
    command.env("LC_ALL", "C.UTF-8").env("TERM", "xterm").env_remove("NO_COLOR").envs(variables.iter().copied());
    Ran::of(command.output().expect("the command 'script', of util-linux"))
}

#[test]
fn a_chunk_does_not_go_to_a_terminal_unasked() {
    let ran = on_terminal("printf '5\\n5\\n' | $0 pack -", &[]);
    assert_eq!(ran.status, 2);
    has(
        &ran.text(),
        &["a chunk is not text, and standard output is a terminal; name a file with -o OUT, or give -o -"],
    );
    let ran = on_terminal("printf '0\\n0\\n' | $0 pack - -o -", &[]);
    assert_eq!(ran.status, 0);
    has(&ran.text(), &["\x03\x01\x02\x00", "2 keys packed as BitPacked in 4 bytes"]);
    let ran = on_terminal("printf '5\\n5\\n' | $0 pack - -o - | $0 unpack - --to binary", &[]);
    has(&ran.text(), &["a column of binary keys is not text, and standard output is a terminal"]);
    let ran = on_terminal("printf '5\\n6\\n' | $0 pack - -o - | $0 unpack -", &[]);
    has(&ran.text(), &["5\r\n6\r\n"]);
}

#[test]
fn colours_are_for_terminals_and_can_be_turned_off() {
    let plan = "printf '5\\n5\\n' | $0 plan -";
    has(&on_terminal(plan, &[]).text(), &["\x1b[1;32m", "\x1b[0m"]);
    for variables in [[("NO_COLOR", "1")], [("TERM", "dumb")]] {
        assert!(!on_terminal(plan, &variables).text().contains('\x1b'));
    }
    assert!(!run_with(&["plan", "-"], b"5\n5\n").succeeds().text().contains('\x1b'));
}

#[test]
fn progress_is_shown_after_a_while_and_erased() {
    let slow = on_terminal("(echo 5; sleep 1; echo 6) | $0 stats - >/dev/null", &[]);
    let text = slow.text();
    has(&text, &["reading"]);
    assert!(text.ends_with("\r\x1b[K"), "{text:?}");
    assert_eq!(on_terminal("printf '5\\n6\\n' | $0 stats - >/dev/null", &[]).text(), "");
    let unseen = on_terminal("(echo 5; sleep 1; echo 6) | $0 stats - 2>/dev/null | cat", &[]);
    assert!(!unseen.text().contains('\x1b'));
}
