//! The plan: which encoding a column is written in, and why.

use crate::encoding::Encoding;
use crate::error::Result;
use crate::ffi;
use crate::level::CompressionLevel;
use crate::stats::new_scratch;

/// Why the planner chose as it did.
///
/// ```
/// use warpboulder::{analyze, CompressionLevel, PlanReason};
///
/// assert_eq!(analyze(&[], CompressionLevel::MAX).reason, PlanReason::Empty);
/// assert_eq!(analyze(&[1], CompressionLevel::NONE).reason, PlanReason::CompressionDisabled);
/// ```
#[derive(Debug, Clone, Copy, PartialEq, Eq)]
pub enum PlanReason {
    /// There are no keys.
    Empty,
    /// The level is [`CompressionLevel::NONE`].
    CompressionDisabled,
    /// No encoding that can be used is shorter.
    SmallestEstimate,
    /// Another encoding is shorter than Plain, but saves less than the level asks for.
    GainBelowThreshold,
}

/// The encoding chosen for a column, and why.
///
/// ```
/// use warpboulder::{analyze, CompressionLevel, Encoding, PlanReason};
///
/// let plan = analyze(&[5, 5, 5, 5], CompressionLevel::BALANCED);
/// assert_eq!((plan.encoding, plan.estimated_bytes), (Encoding::BitPacked, 6));
/// assert_eq!((plan.plain_bytes, plan.reason), (35, PlanReason::SmallestEstimate));
/// ```
#[derive(Debug, Clone, Copy, PartialEq, Eq)]
pub struct EncodingPlan {
    /// The encoding to write the column in.
    pub encoding: Encoding,
    /// The length of its chunk; for [`Encoding::DeltaBinaryPacked`] at least that.
    pub estimated_bytes: usize,
    /// The length of the Plain chunk.
    pub plain_bytes: usize,
    /// Why this encoding.
    pub reason: PlanReason,
}

impl EncodingPlan {
    /// Plain's length by the estimated one: 1.0 where nothing is gained.
    ///
    /// ```
    /// use warpboulder::{analyze, CompressionLevel};
    ///
    /// assert_eq!(analyze(&[5, 5, 5, 5], CompressionLevel::BALANCED).estimated_ratio(), 35.0 / 6.0);
    /// ```
    pub fn estimated_ratio(&self) -> f64 {
        if self.estimated_bytes == 0 {
            1.0
        } else {
            self.plain_bytes as f64 / self.estimated_bytes as f64
        }
    }
}

/// Plans a column: the shortest encoding, of equally short ones the one that is read with the least work, or Plain
/// where that one does not save enough at the level.
///
/// # Panics
///
/// Above [`MAX_CHUNK_ELEMENTS`](crate::MAX_CHUNK_ELEMENTS) values. [`try_analyze`] refuses them instead.
///
/// ```
/// use warpboulder::{analyze, CompressionLevel, Encoding};
///
/// // Keys that rise by two.
/// let ids: Vec<i64> = (0..10_000).map(|i| 1_000_000 + i * 2).collect();
/// let plan = analyze(&ids, CompressionLevel::BALANCED);
/// assert_eq!(plan.encoding, Encoding::DeltaBinaryPacked);
/// assert!(plan.estimated_ratio() > 50.0);
/// ```
#[track_caller]
pub fn analyze(values: &[i64], level: CompressionLevel) -> EncodingPlan {
    // No closure, in which the caller's place would be lost.
    match try_analyze(values, level) {
        Ok(plan) => plan,
        Err(error) => panic!("analyze of {} values: {error}", values.len()),
    }
}

/// Plans a column, as [`analyze`] does.
///
/// # Errors
///
/// [`ColumnAboveLimit`](crate::Refusal::ColumnAboveLimit) above [`MAX_CHUNK_ELEMENTS`](crate::MAX_CHUNK_ELEMENTS)
/// values.
///
/// ```
/// use warpboulder::{try_analyze, CompressionLevel, Encoding, Refusal, MAX_CHUNK_ELEMENTS};
///
/// assert_eq!(try_analyze(&[0], CompressionLevel::default())?.encoding, Encoding::BitPacked);
///
/// let too_many = vec![0; MAX_CHUNK_ELEMENTS + 1];
/// let error = try_analyze(&too_many, CompressionLevel::default()).unwrap_err();
/// assert_eq!(error.refusal(), Refusal::ColumnAboveLimit);
/// # Ok::<(), warpboulder::Error>(())
/// ```
pub fn try_analyze(values: &[i64], level: CompressionLevel) -> Result<EncodingPlan> {
    let plan = ffi::analyze(values, level, &mut new_scratch(values.len()))?;
    Ok(EncodingPlan {
        encoding: encoding_of(plan.encoding),
        estimated_bytes: plan.estimated_bytes as usize,
        plain_bytes: plan.plain_bytes as usize,
        reason: reason_of(plan.reason),
    })
}

fn encoding_of(id: u64) -> Encoding {
    let encoding = u8::try_from(id).ok().and_then(Encoding::from_u8);
    encoding.unwrap_or_else(|| panic!("the library planned encoding {id}, which is none of the seven"))
}

fn reason_of(number: u64) -> PlanReason {
    match number {
        0 => PlanReason::Empty,
        1 => PlanReason::CompressionDisabled,
        2 => PlanReason::SmallestEstimate,
        3 => PlanReason::GainBelowThreshold,
        _ => panic!("the library gave reason {number}, and there is none above 3"),
    }
}

#[cfg(test)]
mod tests {
    use super::*;
    use crate::stats::analyze_integers;

    /// Run density and ratio are computed here from fields that a caller may read and set, as basalt does. They must
    /// have the very bits of those that the library carries with its plan.
    #[test]
    fn density_and_ratio_have_the_bits_of_the_proved_plan() {
        let columns: [Vec<i64>; 5] =
            [vec![], vec![0], vec![5; 4], (0..1000).map(|i| i / 7).collect(), (0..333).map(|i| i * i * i).collect()];
        for column in &columns {
            for level in [CompressionLevel::NONE, CompressionLevel::BALANCED] {
                let proved = ffi::analyze(column, level, &mut new_scratch(column.len())).unwrap();
                let ours = analyze(column, level);
                assert_eq!(ours.estimated_ratio().to_bits(), proved.estimated_ratio.to_bits());
                assert_eq!(analyze_integers(column).run_density().to_bits(), proved.run_density.to_bits());
            }
        }
    }
}
