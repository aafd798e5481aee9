//! The table of the whole: planning, encoding and decoding of every shape in every encoding, and then the leaves, packing and varints.

use crate::options::Options;
use crate::row::{mean, Row};
use crate::table::Table;
use crate::timing::PASSES;
use crate::varints::Reading;
use crate::{allocation, analysis, codecs, inputs, packing, varints};

/// Every row of the parts that are asked for, once.
pub fn rows(options: &Options) -> Vec<Row> {
    let mut rows = Vec::new();
    if options.analysis {
        rows.extend(analysis::rows(options));
    }
    if options.codecs {
        rows.extend(codecs::rows(options));
    }
    if options.leaves {
        rows.extend(leaves(options));
    }
    rows
}

fn leaves(options: &Options) -> Vec<Row> {
    let widths = packing::WIDTHS;
    let mixes = inputs::MIXES;
    let packs = widths.iter().map(|&width| packing::pack_row(width, options));
    let unpacks = widths.iter().map(|&width| packing::unpack_row(width, options));
    let inlined = mixes.iter().map(|&mix| varints::read_row(Reading::Inlined, mix, options));
    let called = mixes.iter().map(|&mix| varints::read_row(Reading::Called, mix, options));
    let writes = mixes.iter().map(|&mix| varints::write_row(mix, options));
    packs.chain(unpacks).chain(inlined).chain(called).chain(writes).collect()
}

const HEADS: [&str; 8] =
    ["operation", "encoding", "input", "values", "Rust, ns a value", "ours, ns a value", "times as fast", "wanted"];
const WORDS: usize = 3;

/// The rows, with the geometric means of each encoding, of each operation on columns, and of all of these.
pub fn table(rows: &[Row]) -> Table {
    let mut lines = Vec::new();
    let columns = rows.partition_point(|row| is_of_columns(row.operation));
    for operation in rows[..columns].chunk_by(|row, next| row.operation == next.operation) {
        for encoding in operation.chunk_by(|row, next| row.encoding == next.encoding) {
            lines.extend(encoding.iter().map(cells));
            lines.push(mean_cells(operation[0].operation, &encoding[0].encoding_name(), encoding));
        }
        if operation[0].encoding.is_some() {
            lines.push(mean_cells(operation[0].operation, "all", operation));
        }
    }
    if columns > 0 && rows[0].operation != rows[columns - 1].operation {
        lines.push(mean_cells("all of these", "", &rows[..columns]));
    }
    lines.extend(rows[columns..].iter().map(cells));
    Table { words: WORDS, heads: HEADS.map(str::to_string).to_vec(), lines }
}

fn is_of_columns(operation: &str) -> bool {
    ["plan", "encode", "decode"].contains(&operation)
}

fn cells(row: &Row) -> Vec<String> {
    vec![
        row.operation.to_string(),
        row.encoding_name(),
        row.input.clone(),
        row.count.to_string(),
        format!("{:.2}", row.times.original),
        format!("{:.2}", row.times.ours),
        format!("{:.2}", row.ratio()),
        row.wanted.map_or(String::new(), |wanted| wanted.to_string()),
    ]
}

fn mean_cells(operation: &str, encoding: &str, rows: &[Row]) -> Vec<String> {
    let input = format!("geometric mean of {} rows", rows.len());
    let none = String::new;
    let ratio = format!("{:.2}", mean(rows));
    vec![operation.to_string(), encoding.to_string(), input, none(), none(), none(), ratio, none()]
}

/// What stands under the table: what of the original's times is for memory that ours is lent, and what is slower than is wanted.
pub fn notes(rows: &[Row], options: &Options) -> Vec<String> {
    let mut notes = vec![format!("Best of {PASSES} times {} rounds.", options.rounds)];
    if options.leaves || options.codecs {
        let cost = allocation::of_new_vec(options.count, options.rounds);
        notes.push(format!("Of the Rust's unpack and decode, {cost:.2} ns a value are for its new Vec."));
    }
    let missed = rows.iter().filter(|row| row.missed());
    notes.extend(missed.map(|row| format!("Below what is wanted: {}.", row.name())));
    notes
}
