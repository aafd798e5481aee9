//! What a key costs in columns of four sizes, each 16 times the one before. Where the cost of a call grows linearly, that of a key does
//! not grow, but for what memory costs once a column is larger than the caches.

use crate::codecs::Case;
use crate::options::Options;
use crate::row::Row;
use crate::shapes::{
    Shape, AROUND_ZERO, LONG_RUNS, MIXED, MOSTLY_SMALL, ONE_SLOT, ONE_THOUSAND, RANDOM, SMALL, SORTED_IDS,
};
use crate::table::Table;
use crate::timing::{Times, PASSES};
use crate::{allocation, analysis};
use basalt_encoding::Encoding;

const EXPONENTS: [u32; 4] = [12, 16, 20, 24];

/// Each encoding, with a shape that is planned in it at every size.
const SUITED: [(Encoding, Shape); 7] = [
    (Encoding::Plain, RANDOM),
    (Encoding::Varint, MOSTLY_SMALL),
    (Encoding::BitPacked, AROUND_ZERO),
    (Encoding::FrameOfReference, SMALL),
    (Encoding::RunLength, LONG_RUNS),
    (Encoding::Dictionary, ONE_THOUSAND),
    (Encoding::DeltaBinaryPacked, SORTED_IDS),
];

/// Shapes that are only planned: what no encoding suits, and the dearest to plan that we know.
const PLANNED_ONLY: [Shape; 2] = [MIXED, ONE_SLOT];

/// The rows of planning, then of encoding, then of decoding. Those of one operation and shape stand together, by size.
pub fn rows(options: &Options) -> Vec<Row> {
    let (mut plans, mut encodes, mut decodes) = (Vec::new(), Vec::new(), Vec::new());
    for (encoding, shape) in SUITED {
        for exponent in EXPONENTS {
            let rounds = rounds(exponent, options);
            let column = shape.column(1 << exponent);
            let planned = analysis::plan(&column, rounds);
            assert_eq!(planned.encoding, encoding, "{} at 2^{exponent}", shape.name);
            let case = Case::new(&column, encoding).expect("what is planned can be written");
            plans.push(row("plan", None, shape, exponent, planned.times));
            encodes.push(row("encode", Some(encoding), shape, exponent, case.encode(rounds)));
            decodes.push(row("decode", Some(encoding), shape, exponent, case.decode(rounds)));
        }
    }
    for shape in PLANNED_ONLY {
        for exponent in EXPONENTS {
            let planned = analysis::plan(&shape.column(1 << exponent), rounds(exponent, options));
            plans.push(row("plan", None, shape, exponent, planned.times));
        }
    }
    plans.into_iter().chain(encodes).chain(decodes).collect()
}

/// So that the table takes three minutes at most where `--rounds` is not given.
fn rounds(exponent: u32, options: &Options) -> usize {
    match exponent {
        ..20 => options.rounds * 8,
        20 => options.rounds,
        _ => options.rounds.div_ceil(8),
    }
}

fn row(operation: &'static str, encoding: Option<Encoding>, shape: Shape, exponent: u32, times: Times) -> Row {
    Row { operation, encoding, input: shape.name.to_string(), count: 1 << exponent, times, wanted: None }
}

/// Two lines for each operation and shape, the original's and ours.
pub fn table(rows: &[Row]) -> Table {
    let words = ["operation", "encoding", "column", "ns a key"].map(str::to_string);
    let sizes = EXPONENTS.map(|exponent| format!("2^{exponent}"));
    let last = format!("2^{} by 2^{}", EXPONENTS[EXPONENTS.len() - 1], EXPONENTS[0]);
    let lines = rows
        .chunks(EXPONENTS.len())
        .flat_map(|sizes| [line(sizes, "Rust", |row| row.times.original), line(sizes, "ours", |row| row.times.ours)]);
    let heads = words.iter().cloned().chain(sizes).chain([last]).collect();
    Table { words: words.len(), heads, lines: lines.collect() }
}

fn line(sizes: &[Row], side: &str, time: fn(&Row) -> f64) -> Vec<String> {
    let first = &sizes[0];
    let times: Vec<f64> = sizes.iter().map(time).collect();
    let words = [first.operation.to_string(), first.encoding_name(), first.input.clone(), side.to_string()];
    let growth = times[times.len() - 1] / times[0];
    words.into_iter().chain(times.iter().chain([&growth]).map(|number| format!("{number:.2}"))).collect()
}

/// What stands under the table: how to read it, and what of the original's times is for memory that ours is lent.
pub fn notes(options: &Options) -> Vec<String> {
    let at_each_size = |what: fn(u32, &Options) -> String| {
        EXPONENTS.map(|exponent| format!("{} at 2^{exponent}", what(exponent, options))).join(", ")
    };
    let all_rounds = at_each_size(|exponent, options| rounds(exponent, options).to_string());
    let new_vecs = at_each_size(|exponent, options| {
        format!("{:.2}", allocation::of_new_vec(1 << exponent, rounds(exponent, options)))
    });
    vec![
        format!("Best of {PASSES} times so many rounds: {all_rounds}."),
        "Where a call's cost grows linearly, a key costs the same at 2^24 as at 2^12, but for memory, since 2^12 keys fit \
         the first caches; where it grows with the square, 4,096 times as much. Where a key costs less, what is paid once, \
         for tables and for each new distinct key, is shared by more keys."
            .to_string(),
        format!("Of the Rust's decode, so many ns a key are for its new Vec: {new_vecs}."),
    ]
}
