//! `inspect`: what the bytes of a chunk are.

use crate::arguments::Arguments;
use crate::chunk_file;
use crate::commands::verify::reported;
use crate::failure::Failure;
use crate::layout::{self, Part};
use crate::memory;
use crate::options;
use crate::output::print;
use crate::progress::Progress;
use crate::reading::{self, refusal_in_words, Verdict};
use crate::table::{self, Align};
use crate::terminal::Style;
use crate::wording::{counted, grouped};

pub fn run(arguments: &Arguments) -> Result<(), Failure> {
    let input = options::chunk_input("inspect", arguments)?;
    let progress = Progress::start();
    let chunk = chunk_file::read(&input, &progress)?;
    progress.phase("reading", None);
    memory::check_for_keys(&chunk)?;
    let parts = layout::map(&chunk);
    let verdict = reading::judge(&chunk, None, false);
    drop(progress);
    let style = Style::of_standard_output();
    let bytes = counted(chunk.len(), "byte", "bytes");
    let map = byte_map(&parts, style);
    let report = format!("{}: {bytes}\n\n{map}\n{}\n", style.strong(&input.name()), conclusion(&verdict, style));
    let printed = print(&report);
    match verdict.count {
        Ok(_) => printed,
        Err(_) => reported(printed),
    }
}

fn byte_map(parts: &[Part], style: Style) -> String {
    let heads = ["offset", "length", "what", "value"].map(str::to_string);
    let row = |part: &Part| [grouped(part.offset), grouped(part.length), part.what.clone(), part.value.clone()];
    let rows: Vec<[String; 4]> = std::iter::once(heads).chain(parts.iter().map(row)).collect();
    let mut lines = table::lines([Align::Right, Align::Right, Align::Left, Align::Left], &rows);
    lines[0] = style.faint(&lines[0]);
    for (line, part) in lines.iter_mut().skip(1).zip(parts) {
        if part.is_fault {
            *line = style.bad(line);
        }
    }
    lines.join("\n") + "\n"
}

fn conclusion(verdict: &Verdict, style: Style) -> String {
    match (&verdict.count, &verdict.strict_refusal) {
        (Err(error), _) => format!("The chunk is {}.", style.bad(&refusal_in_words(error))),
        (Ok(_), None) => format!("The chunk is {}, also read strictly.", style.good("accepted")),
        (Ok(_), Some(error)) => {
            format!("The chunk is {}. Read strictly, it is {}.", style.good("accepted"), refusal_in_words(error))
        }
    }
}
