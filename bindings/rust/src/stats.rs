//! Statistics of a column, and its distinct keys.

use crate::error::Result;
use crate::estimates::{size_estimates_of, SizeEstimates};
use crate::ffi;

/// The most distinct keys that a dictionary holds, 2^14. Distinct keys are counted as far as this.
pub const MAX_DICTIONARY_CARDINALITY: usize = 1 << 14;

/// How many distinct keys a column has.
///
/// ```
/// use warpboulder::{analyze_integers, Cardinality};
///
/// assert_eq!(analyze_integers(&[7, 7, 9]).cardinality, Cardinality::Exact(2));
///
/// let many: Vec<i64> = (0..20_000).collect();
/// assert_eq!(analyze_integers(&many).cardinality, Cardinality::AtLeast(16_385));
/// ```
#[derive(Debug, Clone, Copy, PartialEq, Eq)]
pub enum Cardinality {
    /// This many.
    Exact(usize),
    /// This many or more: they were not counted further.
    AtLeast(usize),
}

impl Cardinality {
    /// The number, exact or not.
    ///
    /// ```
    /// assert_eq!(warpboulder::Cardinality::AtLeast(16_385).value(), 16_385);
    /// ```
    pub const fn value(self) -> usize {
        match self {
            Cardinality::Exact(count) | Cardinality::AtLeast(count) => count,
        }
    }

    /// Whether the number is exact.
    ///
    /// ```
    /// use warpboulder::Cardinality;
    ///
    /// assert!(Cardinality::Exact(2).is_exact());
    /// assert!(!Cardinality::AtLeast(16_385).is_exact());
    /// ```
    pub const fn is_exact(self) -> bool {
        matches!(self, Cardinality::Exact(_))
    }
}

/// The order of a column's keys.
///
/// ```
/// use warpboulder::{analyze_integers, Sortedness};
///
/// assert_eq!(analyze_integers(&[1, 2, 2, 5]).sortedness, Sortedness::Ascending);
/// ```
#[derive(Debug, Clone, Copy, PartialEq, Eq)]
pub enum Sortedness {
    /// All keys are equal, or there are fewer than two.
    Constant,
    /// No key is less than the one before it.
    Ascending,
    /// No key is greater than the one before it.
    Descending,
    /// Neither.
    Unsorted,
}

/// What one pass over a column finds.
///
/// The record also keeps the distinct keys and the estimates of the column; to change a field changes neither.
#[derive(Debug, Clone, PartialEq, Eq)]
pub struct IntegerStats {
    /// How many keys there are.
    pub count: usize,
    /// The first key (0 for an empty column, as all numbers here).
    pub first: i64,
    /// The least key.
    pub min: i64,
    /// The greatest key.
    pub max: i64,
    /// How many runs of equal keys there are, each as long as it can be.
    pub run_count: usize,
    /// The order of the keys.
    pub sortedness: Sortedness,
    /// How many distinct keys there are.
    pub cardinality: Cardinality,
    /// `max - min`, unsigned.
    pub value_span: u64,
    /// The greatest ZigZag, which decides the width of [`BitPacked`](crate::Encoding::BitPacked).
    pub max_zigzag: u64,
    /// The length of a [`Varint`](crate::Encoding::Varint) body.
    pub varint_body_bytes: usize,
    /// The length of a [`RunLength`](crate::Encoding::RunLength) body without the number of runs.
    pub run_length_body_bytes: usize,
    /// The least difference from key to key, modulo 2^64 (0 for fewer than two keys).
    pub delta_min: i64,
    /// The greatest difference from key to key (0 for fewer than two keys).
    pub delta_max: i64,
    /// `delta_max - delta_min`, unsigned.
    pub delta_span: u64,
    distinct_sorted: Option<Vec<i64>>,
    pub(crate) estimates: SizeEstimates,
}

impl IntegerStats {
    /// The distinct keys, rising, or `None` where there are more than [`MAX_DICTIONARY_CARDINALITY`].
    ///
    /// ```
    /// use warpboulder::analyze_integers;
    ///
    /// assert_eq!(analyze_integers(&[9, 7, 9]).distinct_values(), Some(&[7, 9][..]));
    /// ```
    pub fn distinct_values(&self) -> Option<&[i64]> {
        self.distinct_sorted.as_deref()
    }

    /// Runs by keys, from 0.0 to 1.0: low where runs are long.
    ///
    /// ```
    /// assert_eq!(warpboulder::analyze_integers(&[7, 7, 7, 9]).run_density(), 0.5);
    /// ```
    pub fn run_density(&self) -> f64 {
        if self.count == 0 {
            0.0
        } else {
            self.run_count as f64 / self.count as f64
        }
    }
}

/// Collects the statistics of a column, in one pass, and its distinct keys.
///
/// # Panics
///
/// Above [`MAX_CHUNK_ELEMENTS`](crate::MAX_CHUNK_ELEMENTS) values. [`try_analyze_integers`] refuses them instead.
///
/// ```
/// let stats = warpboulder::analyze_integers(&[3, -4, 10]);
/// assert_eq!((stats.min, stats.max, stats.value_span), (-4, 10, 14));
/// ```
#[track_caller]
pub fn analyze_integers(values: &[i64]) -> IntegerStats {
    // No closure, in which the caller's place would be lost.
    match try_analyze_integers(values) {
        Ok(stats) => stats,
        Err(error) => panic!("analyze_integers of {} values: {error}", values.len()),
    }
}

/// Collects the statistics of a column, in one pass, and its distinct keys.
///
/// # Errors
///
/// [`ColumnAboveLimit`](crate::Refusal::ColumnAboveLimit) above [`MAX_CHUNK_ELEMENTS`](crate::MAX_CHUNK_ELEMENTS)
/// values.
///
/// ```
/// use warpboulder::{try_analyze_integers, Refusal, MAX_CHUNK_ELEMENTS};
///
/// assert_eq!(try_analyze_integers(&[7, 7, 9])?.run_count, 2);
///
/// let too_many = vec![0; MAX_CHUNK_ELEMENTS + 1];
/// assert_eq!(try_analyze_integers(&too_many).unwrap_err().refusal(), Refusal::ColumnAboveLimit);
/// # Ok::<(), warpboulder::Error>(())
/// ```
pub fn try_analyze_integers(values: &[i64]) -> Result<IntegerStats> {
    let mut scratch = new_scratch(values.len());
    let (stats, estimates) = ffi::estimate_sizes(values, &mut scratch)?;
    Ok(stats_of(&stats, size_estimates_of(&estimates), scratch))
}

/// The scratch that a column of `count` keys needs, as the capacity of an empty vector.
pub(crate) fn new_scratch(count: usize) -> Vec<i64> {
    Vec::with_capacity(count.min(MAX_DICTIONARY_CARDINALITY))
}

fn stats_of(stats: &ffi::Stats, estimates: SizeEstimates, mut distinct: Vec<i64>) -> IntegerStats {
    let cardinality = cardinality_of(stats);
    // The scratch is far longer than most columns' distinct keys, and a record may be kept for long.
    distinct.shrink_to_fit();
    IntegerStats {
        count: stats.count as usize,
        first: stats.first,
        min: stats.min,
        max: stats.max,
        run_count: stats.run_count as usize,
        sortedness: sortedness_of(stats.sortedness),
        cardinality,
        value_span: stats.value_span,
        max_zigzag: stats.max_zigzag,
        varint_body_bytes: stats.varint_body_bytes as usize,
        run_length_body_bytes: stats.run_length_body_bytes as usize,
        delta_min: stats.delta_min,
        delta_max: stats.delta_max,
        delta_span: stats.delta_span,
        distinct_sorted: cardinality.is_exact().then_some(distinct),
        estimates,
    }
}

fn cardinality_of(stats: &ffi::Stats) -> Cardinality {
    match stats.cardinality_is_exact {
        0 => Cardinality::AtLeast(stats.cardinality as usize),
        _ => Cardinality::Exact(stats.cardinality as usize),
    }
}

fn sortedness_of(number: u64) -> Sortedness {
    match number {
        0 => Sortedness::Constant,
        1 => Sortedness::Ascending,
        2 => Sortedness::Descending,
        3 => Sortedness::Unsorted,
        _ => panic!("the library answered sortedness {number}, and there is none above 3"),
    }
}
