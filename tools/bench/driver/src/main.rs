//! Times our proved code against the original Rust, both in one run on the same inputs. See docs/BENCHMARKS.md.

mod allocation;
mod analysis;
mod codecs;
mod growth;
mod inputs;
mod options;
mod ours;
mod packing;
mod row;
mod shapes;
mod table;
mod timing;
mod varints;
mod whole;

use options::Options;
use row::Row;
use std::io::{self, IsTerminal, Write};
use std::process::ExitCode;
use table::Table;
use timing::PASSES;

/// The rows with the best times of all passes.
fn best_of_passes(pass: fn(&Options) -> Vec<Row>, options: &Options) -> Vec<Row> {
    say(1);
    let mut rows = pass(options);
    for number in 2..=PASSES {
        say(number);
        for (row, again) in rows.iter_mut().zip(pass(options)) {
            row.times.keep_best(&again.times);
        }
    }
    rows
}

/// A pass takes up to a minute, in which nothing is printed.
fn say(pass: usize) {
    if io::stderr().is_terminal() {
        eprintln!("pass {pass} of {PASSES}");
    }
}

/// A table and its notes, in lines.
fn section(table: &Table, notes: &[String], options: &Options) -> String {
    let mark = if options.markdown { "- " } else { "" };
    let mut lines = table.text(options.markdown);
    lines.push(String::new());
    lines.extend(notes.iter().map(|note| format!("{mark}{note}")));
    lines.iter().map(|line| format!("{line}\n")).collect()
}

/// Each table as soon as it is measured.
fn print_tables(options: &Options, out: &mut impl Write) -> io::Result<()> {
    if options.of_whole() {
        let rows = best_of_passes(whole::rows, options);
        out.write_all(section(&whole::table(&rows), &whole::notes(&rows, options), options).as_bytes())?;
    }
    if options.of_whole() && options.growth {
        writeln!(out)?;
    }
    if options.growth {
        let rows = best_of_passes(growth::rows, options);
        out.write_all(section(&growth::table(&rows), &growth::notes(options), options).as_bytes())?;
    }
    out.flush()
}

fn main() -> ExitCode {
    let options = match Options::from_arguments() {
        Ok(options) => options,
        Err(message) => {
            eprintln!("bench: {message}");
            return ExitCode::from(2);
        }
    };
    match print_tables(&options, &mut io::stdout()) {
        Ok(()) => ExitCode::SUCCESS,
        Err(error) => {
            eprintln!("bench: the table could not be printed: {error}.");
            ExitCode::FAILURE
        }
    }
}
