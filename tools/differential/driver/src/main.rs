//! Compares our proved library with the original Rust, call by call, in one process. See the head of tools/differential/run.

mod answer;
mod c_api;
mod calls;
mod compare;
mod desk;
mod families;
mod job;
mod lent;
mod options;
mod original;
mod plants;
mod report;
mod run;
mod show;
mod strict;
mod tally;

// Parts of the generator of stored answers, which tools/oracle/build puts beside the original.
#[path = "../original/generator/src/handmade.rs"]
mod handmade;
#[allow(dead_code)]
#[path = "../original/generator/src/numbers.rs"]
mod numbers;
#[path = "../original/generator/src/pieces.rs"]
mod pieces;
#[path = "../original/generator/src/reading.rs"]
mod reading;
#[path = "../original/generator/src/refusal.rs"]
mod refusal;
#[allow(dead_code)]
#[path = "../original/generator/src/shapes.rs"]
mod shapes;

use options::Options;
use std::process::ExitCode;

/// 0: no difference, or every planted error was found; 1: not so; 2: wrong options.
fn main() -> ExitCode {
    let options = match Options::from_arguments() {
        Ok(options) => options,
        Err(message) => {
            eprintln!("differential: {message}");
            return ExitCode::from(2);
        }
    };
    original::keep_panics_quiet();
    let good = if options.plants { report::plants(&options) } else { report::comparison(&options) };
    ExitCode::from(u8::from(!good))
}
