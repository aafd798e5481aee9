//! The seven encodings and their ids.

use std::fmt;

use crate::ffi;

/// How the keys of a chunk are written. The numbers are the first byte of a chunk and never change.
///
/// ```
/// use warpboulder::Encoding;
///
/// assert_eq!(Encoding::RunLength.as_u8(), 5);
/// assert_eq!(Encoding::RunLength.name(), "RunLength");
/// assert_eq!(Encoding::RunLength.to_string(), "RLE");
/// ```
#[derive(Debug, Clone, Copy, PartialEq, Eq, PartialOrd, Ord, Hash)]
#[repr(u8)]
pub enum Encoding {
    /// Eight bytes a key, little-endian.
    Plain = 1,
    /// A signed varint for each key.
    Varint = 2,
    /// The ZigZags of the keys, packed at one width.
    BitPacked = 3,
    /// The least key, and the differences from it, packed at one width.
    FrameOfReference = 4,
    /// Runs of equal keys: the key and the length of each.
    RunLength = 5,
    /// The distinct keys, rising, and a packed code for each key.
    Dictionary = 6,
    /// The first key, and blocks of packed differences from key to key.
    DeltaBinaryPacked = 7,
}

impl Encoding {
    /// All encodings in the order of their ids, which are 1 to 7.
    ///
    /// ```
    /// use warpboulder::Encoding;
    ///
    /// assert_eq!(Encoding::ALL.map(Encoding::as_u8), [1, 2, 3, 4, 5, 6, 7]);
    /// ```
    pub const ALL: [Encoding; ffi::ENCODINGS] = [
        Encoding::Plain,
        Encoding::Varint,
        Encoding::BitPacked,
        Encoding::FrameOfReference,
        Encoding::RunLength,
        Encoding::Dictionary,
        Encoding::DeltaBinaryPacked,
    ];

    /// The id, which is the first byte of a chunk.
    ///
    /// ```
    /// assert_eq!(warpboulder::Encoding::DeltaBinaryPacked.as_u8(), 7);
    /// ```
    pub const fn as_u8(self) -> u8 {
        self as u8
    }

    /// The encoding with this id, if there is one.
    ///
    /// ```
    /// use warpboulder::Encoding;
    ///
    /// assert_eq!(Encoding::from_u8(1), Some(Encoding::Plain));
    /// assert_eq!(Encoding::from_u8(8), None); // 8 and 9 are encodings of bytes
    /// ```
    pub const fn from_u8(raw: u8) -> Option<Encoding> {
        match raw {
            1..=7 => Some(Encoding::ALL[raw as usize - 1]),
            _ => None,
        }
    }

    /// How much work reading is, least first. Between encodings of equal length the planner takes the lower rank.
    ///
    /// ```
    /// use warpboulder::Encoding;
    ///
    /// assert_eq!(Encoding::ALL.map(Encoding::decode_cost_rank), [0, 5, 1, 1, 4, 3, 2]);
    /// ```
    pub const fn decode_cost_rank(self) -> u8 {
        match self {
            Encoding::Plain => 0,
            Encoding::BitPacked | Encoding::FrameOfReference => 1,
            Encoding::DeltaBinaryPacked => 2,
            Encoding::Dictionary => 3,
            Encoding::RunLength => 4,
            Encoding::Varint => 5,
        }
    }

    /// The name as it stands in code. `Display` gives basalt's short name instead.
    ///
    /// ```
    /// use warpboulder::Encoding;
    ///
    /// assert_eq!(Encoding::FrameOfReference.name(), "FrameOfReference");
    /// assert_eq!(Encoding::FrameOfReference.to_string(), "FOR");
    /// ```
    pub const fn name(self) -> &'static str {
        match self {
            Encoding::Plain => "Plain",
            Encoding::Varint => "Varint",
            Encoding::BitPacked => "BitPacked",
            Encoding::FrameOfReference => "FrameOfReference",
            Encoding::RunLength => "RunLength",
            Encoding::Dictionary => "Dictionary",
            Encoding::DeltaBinaryPacked => "DeltaBinaryPacked",
        }
    }
}

impl fmt::Display for Encoding {
    fn fmt(&self, f: &mut fmt::Formatter<'_>) -> fmt::Result {
        f.write_str(match self {
            Encoding::Plain => "PLAIN",
            Encoding::Varint => "VARINT",
            Encoding::BitPacked => "BITPACKED",
            Encoding::FrameOfReference => "FOR",
            Encoding::RunLength => "RLE",
            Encoding::Dictionary => "DICTIONARY",
            Encoding::DeltaBinaryPacked => "DELTA",
        })
    }
}
