//! One comparison: an operation on an input, with the best time of each side.

use crate::timing::Times;
use basalt_encoding::Encoding;

pub struct Row {
    pub operation: &'static str,
    /// None where the operation is not one of an encoding.
    pub encoding: Option<Encoding>,
    pub input: String,
    /// How many keys or values the input has.
    pub count: usize,
    pub times: Times,
    /// How many times as fast as the original ours should be, where that was asked for.
    pub wanted: Option<f64>,
}

impl Row {
    /// How many times as fast as the original ours is, to the two digits that are printed.
    pub fn ratio(&self) -> f64 {
        (100.0 * self.times.original / self.times.ours).round() / 100.0
    }

    pub fn missed(&self) -> bool {
        self.wanted.is_some_and(|wanted| self.ratio() < wanted)
    }

    pub fn encoding_name(&self) -> String {
        self.encoding.map_or(String::new(), |encoding| format!("{encoding:?}"))
    }

    /// All that tells this row from others.
    pub fn name(&self) -> String {
        let count = format!("{} values", self.count);
        let words = [self.operation.to_string(), self.encoding_name(), self.input.clone(), count];
        words.into_iter().filter(|word| !word.is_empty()).collect::<Vec<String>>().join(", ")
    }
}

/// The geometric mean of the rows' ratios; there is at least one row.
pub fn mean(rows: &[Row]) -> f64 {
    let logarithms: f64 = rows.iter().map(|row| row.ratio().ln()).sum();
    (logarithms / rows.len() as f64).exp()
}
