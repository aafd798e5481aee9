//! `verify`: whether a chunk is accepted, and if not, why.

use warpboulder::peek_encoding;

use crate::arguments::{Arguments, STRICT};
use crate::chunk_file;
use crate::failure::Failure;
use crate::memory;
use crate::options;
use crate::output::print;
use crate::progress::Progress;
use crate::reading::{self, refusal_in_words, Verdict};
use crate::terminal::Style;
use crate::wording::counted;

pub fn run(arguments: &Arguments) -> Result<(), Failure> {
    let input = options::chunk_input("verify", arguments)?;
    let named = options::encoding(arguments)?;
    let is_strict = arguments.has(&STRICT);
    let progress = Progress::start();
    let chunk = chunk_file::read(&input, &progress)?;
    progress.phase("checking", None);
    memory::check_for_keys(&chunk)?;
    let verdict = reading::judge(&chunk, named, is_strict);
    drop(progress);
    let printed = print(&report(&input.name(), &chunk, &verdict, is_strict, Style::of_standard_output()));
    match verdict.count {
        Ok(_) => printed,
        Err(_) => reported(printed),
    }
}

/// A refusal that was printed decides the exit status, even where nobody has read it to the end.
pub fn reported(printed: Result<(), Failure>) -> Result<(), Failure> {
    match printed {
        Err(failure @ Failure::Failed(_)) => Err(failure),
        _ => Err(Failure::Reported),
    }
}

fn report(name: &str, chunk: &[u8], verdict: &Verdict, is_strict: bool, style: Style) -> String {
    let (count, encoding) = match (verdict.count, peek_encoding(chunk)) {
        (Ok(count), Ok(encoding)) => (count, encoding),
        (Err(error), _) | (_, Err(error)) => return format!("{name}: {}.\n", style.bad(&refusal_in_words(&error))),
    };
    let keys = counted(count, "key", "keys");
    let bytes = counted(chunk.len(), "byte", "bytes");
    let accepted = style.good(if is_strict { "accepted, read strictly" } else { "accepted" });
    let mut report = format!("{name}: {accepted}: {keys}, {}, {bytes}.\n", encoding.name());
    if let Some(error) = &verdict.strict_refusal {
        report += &format!("Read strictly, it is {}.\n", refusal_in_words(error));
    }
    report
}
