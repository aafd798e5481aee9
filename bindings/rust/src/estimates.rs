//! The lengths of a column's chunks.

use crate::encoding::Encoding;
use crate::ffi;
use crate::stats::IntegerStats;

/// The length, in bytes, of a column's chunk in each encoding; `None` where the encoding cannot be used. All are exact
/// but `delta`, which is never too short.
///
/// ```
/// use warpboulder::{analyze_integers, estimate_sizes};
///
/// let sizes = estimate_sizes(&analyze_integers(&[5, 5, 5, 5]));
/// assert_eq!((sizes.plain, sizes.bit_packed, sizes.dictionary), (35, 6, Some(6)));
/// ```
#[derive(Debug, Clone, Copy, PartialEq, Eq)]
pub struct SizeEstimates {
    /// The length in [`Encoding::Plain`].
    pub plain: usize,
    /// The length in [`Encoding::Varint`].
    pub varint: usize,
    /// The length in [`Encoding::BitPacked`].
    pub bit_packed: usize,
    /// The length in [`Encoding::FrameOfReference`].
    pub frame_of_reference: usize,
    /// The length in [`Encoding::RunLength`].
    pub run_length: usize,
    /// The length in [`Encoding::Dictionary`], for at most
    /// [`MAX_DICTIONARY_CARDINALITY`](crate::MAX_DICTIONARY_CARDINALITY) distinct keys.
    pub dictionary: Option<usize>,
    /// At least the length in [`Encoding::DeltaBinaryPacked`], for two keys or more.
    pub delta: Option<usize>,
}

impl SizeEstimates {
    /// The encodings that can be used, each with its length, in the order of their ids.
    ///
    /// ```
    /// use warpboulder::{analyze_integers, estimate_sizes, Encoding};
    ///
    /// // With a single key there are no differences.
    /// let candidates = estimate_sizes(&analyze_integers(&[0])).candidates();
    /// assert_eq!(candidates.len(), 6);
    /// assert_eq!(candidates[2], (Encoding::BitPacked, 4));
    /// ```
    pub fn candidates(&self) -> Vec<(Encoding, usize)> {
        let lengths = [
            Some(self.plain),
            Some(self.varint),
            Some(self.bit_packed),
            Some(self.frame_of_reference),
            Some(self.run_length),
            self.dictionary,
            self.delta,
        ];
        let listed = Encoding::ALL.into_iter().zip(lengths);
        listed.filter_map(|(encoding, length)| Some((encoding, length?))).collect()
    }
}

/// The length of the column's chunk in each encoding.
///
/// The estimates are made of the column when it is analysed, and are read here: there are none for a record that no
/// column has.
///
/// ```
/// use warpboulder::{analyze_integers, encode_integers, estimate_sizes, Encoding};
///
/// let keys = [5, 5, 5, 5];
/// let sizes = estimate_sizes(&analyze_integers(&keys));
/// let mut chunk = Vec::new();
/// encode_integers(&keys, Encoding::RunLength, &mut chunk)?;
/// assert_eq!(chunk.len(), sizes.run_length);
/// # Ok::<(), warpboulder::Error>(())
/// ```
pub fn estimate_sizes(stats: &IntegerStats) -> SizeEstimates {
    stats.estimates
}

pub(crate) fn size_estimates_of(estimates: &ffi::Estimates) -> SizeEstimates {
    let place = |encoding: Encoding| usize::from(encoding.as_u8()) - 1;
    let length = |encoding: Encoding| estimates.lengths[place(encoding)] as usize;
    let if_available = |encoding: Encoding| (estimates.available[place(encoding)] != 0).then_some(length(encoding));
    SizeEstimates {
        plain: length(Encoding::Plain),
        varint: length(Encoding::Varint),
        bit_packed: length(Encoding::BitPacked),
        frame_of_reference: length(Encoding::FrameOfReference),
        run_length: length(Encoding::RunLength),
        dictionary: if_available(Encoding::Dictionary),
        delta: if_available(Encoding::DeltaBinaryPacked),
    }
}
