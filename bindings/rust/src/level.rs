//! How much a column has to gain to be compressed.

use crate::ffi;

/// How much saving justifies an encoding that is read more slowly than Plain.
///
/// | Level | Least saving to leave Plain |
/// |---|---|
/// | 0 | none is enough: always Plain |
/// | 1 to 3 | 20% |
/// | 4 to 6 | 5% |
/// | 7 to 9 | 1% |
///
/// ```
/// use warpboulder::CompressionLevel;
///
/// assert_eq!(CompressionLevel::default(), CompressionLevel::BALANCED);
/// assert_eq!(CompressionLevel::new(6), Some(CompressionLevel::BALANCED));
/// assert_eq!(CompressionLevel::new(10), None);
/// ```
#[derive(Debug, Clone, Copy, PartialEq, Eq, PartialOrd, Ord, Hash)]
pub struct CompressionLevel(u8);

impl CompressionLevel {
    /// 0: everything stays Plain.
    pub const NONE: CompressionLevel = CompressionLevel(0);
    /// 3: what saves 20%.
    pub const FAST: CompressionLevel = CompressionLevel(3);
    /// 6, the default: what saves 5%.
    pub const BALANCED: CompressionLevel = CompressionLevel(6);
    /// 9: what saves 1%.
    pub const MAX: CompressionLevel = CompressionLevel(9);

    /// The level of this number, or `None` above 9.
    ///
    /// ```
    /// use warpboulder::CompressionLevel;
    ///
    /// assert_eq!(CompressionLevel::new(9), Some(CompressionLevel::MAX));
    /// assert_eq!(CompressionLevel::new(10), None);
    /// ```
    pub const fn new(level: u8) -> Option<CompressionLevel> {
        if level <= CompressionLevel::MAX.0 {
            Some(CompressionLevel(level))
        } else {
            None
        }
    }

    /// The number, 0 to 9.
    ///
    /// ```
    /// assert_eq!(warpboulder::CompressionLevel::FAST.get(), 3);
    /// ```
    pub const fn get(self) -> u8 {
        self.0
    }

    /// Whether an encoding other than Plain may be chosen.
    ///
    /// ```
    /// use warpboulder::CompressionLevel;
    ///
    /// assert!(!CompressionLevel::NONE.is_enabled());
    /// assert!(CompressionLevel::FAST.is_enabled());
    /// ```
    pub const fn is_enabled(self) -> bool {
        self.0 > 0
    }

    /// Whether basalt may compress texts and other bytes at this level: from 4 on. This crate has integers alone, and
    /// does not look at it.
    ///
    /// ```
    /// use warpboulder::CompressionLevel;
    ///
    /// assert!(!CompressionLevel::FAST.allows_byte_compression());
    /// assert!(CompressionLevel::BALANCED.allows_byte_compression());
    /// ```
    pub const fn allows_byte_compression(self) -> bool {
        self.0 >= 4
    }

    /// Whether basalt is to make exact statistics at this level rather than sampled ones: from 7 on. The statistics of
    /// this crate are exact at every level, and it does not look at it.
    ///
    /// ```
    /// use warpboulder::CompressionLevel;
    ///
    /// assert!(!CompressionLevel::BALANCED.wants_exact_statistics());
    /// assert!(CompressionLevel::MAX.wants_exact_statistics());
    /// ```
    pub const fn wants_exact_statistics(self) -> bool {
        self.0 >= 7
    }

    /// The fraction of Plain's length that has to be saved before another encoding is taken; 1.0 at level 0, which
    /// takes none.
    ///
    /// ```
    /// use warpboulder::CompressionLevel;
    ///
    /// assert_eq!(CompressionLevel::BALANCED.minimum_gain(), 0.05);
    /// assert_eq!(CompressionLevel::NONE.minimum_gain(), 1.0);
    /// ```
    pub fn minimum_gain(self) -> f64 {
        ffi::minimum_gain(self)
    }
}

impl Default for CompressionLevel {
    fn default() -> Self {
        CompressionLevel::BALANCED
    }
}

#[cfg(test)]
mod tests {
    use super::*;

    /// The levels from which basalt says yes. Constants, since basalt's functions can be called in them.
    #[test]
    fn byte_compression_and_exact_statistics_begin_where_basalt_has_them() {
        const _: () = assert!(CompressionLevel::MAX.allows_byte_compression());
        const _: () = assert!(CompressionLevel::MAX.wants_exact_statistics());
        for number in 0..=9 {
            let level = CompressionLevel::new(number).unwrap();
            assert_eq!(level.allows_byte_compression(), number >= 4);
            assert_eq!(level.wants_exact_statistics(), number >= 7);
        }
    }
}
