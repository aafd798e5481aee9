//! `stats`: what one pass over a column finds, in words.

use warpboulder::bitpack::required_width;
use warpboulder::{try_analyze_integers, IntegerStats, Sortedness};

use crate::arguments::Arguments;
use crate::failure::Failure;
use crate::options;
use crate::output::print;
use crate::progress::Progress;
use crate::table::{self, Align};
use crate::terminal::Style;
use crate::wording::{counted, grouped};

/// So many distinct keys are shown.
const SHOWN_KEYS: usize = 5;

pub fn run(arguments: &Arguments) -> Result<(), Failure> {
    let source = options::key_source("stats", arguments)?;
    let progress = Progress::start();
    let column = source.read(&progress)?;
    progress.phase("counting", None);
    let stats =
        try_analyze_integers(&column.keys).map_err(|error| Failure::Failed(format!("{}: {error}.", column.title)))?;
    drop(progress);
    print(&report(&column.title, &stats, Style::of_standard_output()))
}

fn report(title: &str, stats: &IntegerStats, style: Style) -> String {
    let mut report = format!("{}: {}\n\n", style.strong(title), counted(stats.count, "key", "keys"));
    for line in table::lines([Align::Left, Align::Left], &rows(stats)) {
        report += &(line + "\n");
    }
    report
}

fn rows(stats: &IntegerStats) -> Vec<[String; 2]> {
    // What is told of a key needs one, and a delta needs two.
    let of_keys = |value: String| if stats.count > 0 { value } else { "-".to_string() };
    let of_deltas = |value: String| if stats.count > 1 { value } else { "-".to_string() };
    [
        ("first key", of_keys(stats.first.to_string())),
        ("least key", of_keys(stats.min.to_string())),
        ("greatest key", of_keys(stats.max.to_string())),
        ("span", of_keys(spanned(stats.value_span))),
        ("order", order(stats.sortedness).to_string()),
        ("distinct keys", distinct(stats)),
        ("runs", format!("{} (density {:.4})", grouped(stats.run_count), stats.run_density())),
        ("greatest ZigZag", of_keys(spanned(stats.max_zigzag))),
        ("least delta", of_deltas(grouped(stats.delta_min))),
        ("greatest delta", of_deltas(grouped(stats.delta_max))),
        ("span of deltas", of_deltas(spanned(stats.delta_span))),
        ("varint body", counted(stats.varint_body_bytes, "byte", "bytes")),
        ("run-length body", counted(stats.run_length_body_bytes, "byte", "bytes")),
    ]
    .map(|(what, value)| [what.to_string(), value])
    .to_vec()
}

/// A number with the width that it is packed at.
fn spanned(number: u64) -> String {
    format!("{} ({})", grouped(number), counted(required_width(number) as usize, "bit", "bits"))
}

fn order(sortedness: Sortedness) -> &'static str {
    match sortedness {
        Sortedness::Constant => "constant: no key differs from another",
        Sortedness::Ascending => "ascending: no key is less than the one before",
        Sortedness::Descending => "descending: no key is greater than the one before",
        Sortedness::Unsorted => "unsorted",
    }
}

fn distinct(stats: &IntegerStats) -> String {
    let Some(keys) = stats.distinct_values() else {
        return format!("{} or more (they are not counted further)", grouped(stats.cardinality.value()));
    };
    let shown: Vec<String> = keys.iter().take(SHOWN_KEYS).map(i64::to_string).collect();
    match keys.len() {
        0 => "0".to_string(),
        count if count > SHOWN_KEYS => format!("{}: {}, ...", grouped(count), shown.join(", ")),
        count => format!("{}: {}", grouped(count), shown.join(", ")),
    }
}
