//! The command line of Warpboulder: plans, packs, unpacks, inspects and verifies columns of signed 64-bit keys.

mod arguments;
mod bar;
mod chunk_file;
mod commands;
mod failure;
mod help;
mod identity;
mod input;
mod keys;
mod layout;
mod memory;
mod options;
mod output;
mod progress;
mod reading;
mod table;
mod temporary;
mod terminal;
mod wording;

use std::env;
use std::ffi::OsString;
use std::io::{self, Write};
use std::os::unix::ffi::OsStrExt;
use std::process::ExitCode;

use arguments::{usage, Arguments, HELP};
use commands::{Command, COMMANDS};
use failure::Failure;
use output::print;
use wording::{listed, quoted};

fn main() -> ExitCode {
    let words: Vec<OsString> = env::args_os().skip(1).collect();
    match run(&words) {
        Ok(()) => ExitCode::SUCCESS,
        Err(failure) => {
            if let Some(sentence) = failure.sentence() {
                // Where standard error cannot be written, the exit status has to do.
                let _ = writeln!(io::stderr(), "warpboulder: {sentence}");
            }
            failure.exit_code()
        }
    }
}

fn run(words: &[OsString]) -> Result<(), Failure> {
    let Some((first, rest)) = words.split_first() else {
        return Err(usage(format!("give a command: {}.", command_names())));
    };
    match first.to_str() {
        Some("help") => print(&help_for(rest)?),
        Some("--help" | "-h") => print(&help::overview()),
        Some("--version" | "-V") => print(&format!("warpboulder {}\n", env!("CARGO_PKG_VERSION"))),
        _ => run_command(find_command(first)?, rest),
    }
}

fn run_command(command: &Command, words: &[OsString]) -> Result<(), Failure> {
    let arguments = Arguments::parse(command.name, command.flags, words)?;
    if arguments.has(&HELP) {
        return print(command.help);
    }
    (command.run)(&arguments)
}

fn help_for(words: &[OsString]) -> Result<String, Failure> {
    match words {
        [] => Ok(help::overview()),
        [word] => Ok(find_command(word)?.help.to_string()),
        _ => Err(usage("help takes one command.".to_string())),
    }
}

fn find_command(word: &OsString) -> Result<&'static Command, Failure> {
    let unknown = || usage(format!("there is no command {}; give {}.", quoted(word.as_bytes()), command_names()));
    COMMANDS.iter().find(|command| word == command.name).ok_or_else(unknown)
}

fn command_names() -> String {
    let names: Vec<&str> = COMMANDS.iter().map(|command| command.name).chain(["help"]).collect();
    listed(&names, "or")
}
