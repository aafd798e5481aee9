//! Why a call was refused: the [`Refusal`], and the [`Error`] that says where as well.

use std::fmt;
use std::hash::{Hash, Hasher};

/// What a call that can be refused returns.
pub type Result<T, E = Error> = std::result::Result<T, E>;

/// Makes the enum and its lists from one table, so that a number, its name and its sentence stand in one line.
macro_rules! refusals {
    ($($number:literal $name:ident $sentence:literal)*) => {
        /// The reason for which a call was refused. The numbers are part of the library's interface and never change.
        ///
        /// ```
        /// use warpboulder::Refusal;
        ///
        /// assert_eq!(Refusal::VarintCut.number(), 6);
        /// assert_eq!(Refusal::from_number(6), Some(Refusal::VarintCut));
        /// assert_eq!(Refusal::VarintCut.to_string(), "the bytes end in the middle of a varint");
        /// ```
        #[derive(Debug, Clone, Copy, PartialEq, Eq, PartialOrd, Ord, Hash)]
        #[repr(u32)]
        pub enum Refusal {
            $(#[doc = concat!($number, ": ", $sentence, ".")] $name = $number,)*
        }

        impl Refusal {
            /// All refusals in the order of their numbers, which are 1 to 26.
            ///
            /// ```
            /// use warpboulder::Refusal;
            ///
            /// let numbers = Refusal::ALL.map(Refusal::number);
            /// assert!(numbers.into_iter().eq(1..=26));
            /// ```
            pub const ALL: [Refusal; 26] = [$(Refusal::$name),*];

            /// The reason in words.
            const fn sentence(self) -> &'static str {
                match self {
                    $(Refusal::$name => $sentence,)*
                }
            }
        }
    };
}

refusals! {
    1 UnknownId "the first byte is missing or is no encoding id from 1 to 9"
    2 NotAnIntegerEncoding "the encoding is not one of the seven for integers, which have the ids 1 to 7"
    3 NoHeader "there are fewer than the two bytes that a header begins with"
    4 OtherEncoding "the chunk is in another encoding than the one named"
    5 UnknownVersion "the version byte is not 1"
    6 VarintCut "the bytes end in the middle of a varint"
    7 VarintTooLong "a varint has more than ten bytes"
    8 CountAboveLimit "the header claims more than 16,777,216 keys"
    9 PlainCut "there are fewer than eight bytes for each key"
    10 NoWidth "the width byte is missing"
    11 FrameCut "the least key or the width byte of a frame of reference is missing"
    12 WidthAbove64 "a width is above 64 bits"
    13 PackedCut "there are too few packed bytes, and the offset is how many there are"
    14 RunsAboveCount "there are more runs than keys"
    15 RunAboveRest "a run is longer than what is left of the count"
    16 RunsBelowCount "the runs hold fewer keys than the header claims"
    17 EntriesAboveBytes "the dictionary claims more entries than there are bytes left"
    18 CodeAboveEntries "a code names no entry of the dictionary"
    19 BlockSizeOutOfRange "the block size of the deltas is not from 1 to 1,048,576"
    20 BufferTooShort "the buffer lent is too short, and the offset is the length needed"
    21 ColumnAboveLimit "there are more than 16,777,216 keys or values"
    22 ScratchTooShort "the scratch lent is too short"
    23 TooManyDistinct "there are more than 16,384 distinct keys, which no dictionary holds"
    24 LevelAbove9 "the compression level is above 9"
    25 VarintPadded "a varint is longer than it needs to be, which strict reading refuses"
    26 BytesAfterBody "bytes follow the body of the chunk, which strict reading refuses"
}

impl Refusal {
    /// The number, 1 to 26.
    ///
    /// ```
    /// assert_eq!(warpboulder::Refusal::BytesAfterBody.number(), 26);
    /// ```
    pub const fn number(self) -> u32 {
        self as u32
    }

    /// The refusal with this number, if there is one.
    ///
    /// ```
    /// use warpboulder::Refusal;
    ///
    /// assert_eq!(Refusal::from_number(1), Some(Refusal::UnknownId));
    /// assert_eq!(Refusal::from_number(0), None); // 0 is the number of what was accepted
    /// assert_eq!(Refusal::from_number(27), None);
    /// ```
    pub fn from_number(number: u32) -> Option<Refusal> {
        Refusal::ALL.into_iter().find(|refusal| refusal.number() == number)
    }
}

impl fmt::Display for Refusal {
    fn fmt(&self, f: &mut fmt::Formatter<'_>) -> fmt::Result {
        f.write_str(self.sentence())
    }
}

/// A refusal with its offset.
///
/// ```
/// use warpboulder::{decode_integers, Refusal};
///
/// // A Plain chunk that claims one key and has seven of its eight bytes.
/// let error = decode_integers(&[1, 1, 1, 0, 0, 0, 0, 0, 0, 0]).unwrap_err();
/// assert_eq!(error.refusal(), Refusal::PlainCut);
/// assert_eq!((error.number(), error.offset()), (9, 3));
/// assert_eq!(error.to_string(), "there are fewer than eight bytes for each key (refusal 9 at offset 3)");
/// ```
///
/// Two errors are equal where their refusals and offsets are.
#[derive(Debug, Clone, Copy)]
pub struct Error {
    refusal: Refusal,
    offset: usize,
    /// The caller's own argument is at fault, though the same refusal may be met in bytes that are read.
    of_argument: bool,
}

impl Error {
    /// An error with this refusal and offset, for a [`Codec`](crate::Codec) of your own.
    /// [`is_corruption`](Error::is_corruption) takes the refusals of reading for ones of bytes that were read.
    ///
    /// ```
    /// use warpboulder::{Codec, Encoding, Error, PlainCodec, Refusal, Result};
    ///
    /// /// Plain chunks of no more than 1,000 keys.
    /// struct ShortCodec;
    ///
    /// impl Codec for ShortCodec {
    ///     type Input = [i64];
    ///     type Output = Vec<i64>;
    ///
    ///     fn encoding(&self) -> Encoding {
    ///         Encoding::Plain
    ///     }
    ///
    ///     fn encode(&self, keys: &[i64], out: &mut Vec<u8>) -> Result<()> {
    ///         if keys.len() > 1_000 {
    ///             return Err(Error::new(Refusal::ColumnAboveLimit, 0));
    ///         }
    ///         PlainCodec.encode(keys, out)
    ///     }
    ///
    ///     fn decode(&self, chunk: &[u8]) -> Result<Vec<i64>> {
    ///         let keys = PlainCodec.decode(chunk)?;
    ///         if keys.len() > 1_000 {
    ///             return Err(Error::new(Refusal::CountAboveLimit, 2));
    ///         }
    ///         Ok(keys)
    ///     }
    /// }
    ///
    /// let error = ShortCodec.encode_to_vec(&[7; 1_001]).unwrap_err();
    /// assert_eq!((error.number(), error.is_corruption()), (21, false));
    ///
    /// let error = ShortCodec.decode(&PlainCodec.encode_to_vec(&[7; 1_001])?).unwrap_err();
    /// assert_eq!((error.number(), error.corruption_offset()), (8, Some(2)));
    /// # Ok::<(), Error>(())
    /// ```
    pub const fn new(refusal: Refusal, offset: usize) -> Error {
        Error { refusal, offset, of_argument: false }
    }

    /// The same error, of a call that reads no bytes.
    pub(crate) const fn of_argument(self) -> Error {
        Error { of_argument: true, ..self }
    }

    /// The reason.
    ///
    /// ```
    /// use warpboulder::{decode_integers, Refusal};
    ///
    /// assert_eq!(decode_integers(&[]).unwrap_err().refusal(), Refusal::UnknownId);
    /// ```
    pub const fn refusal(&self) -> Refusal {
        self.refusal
    }

    /// The number of the reason, 1 to 26.
    ///
    /// ```
    /// assert_eq!(warpboulder::decode_integers(&[]).unwrap_err().number(), 1);
    /// ```
    pub const fn number(&self) -> u32 {
        self.refusal.number()
    }

    /// The place in the bytes at which they were refused. For [`Refusal::PackedCut`] it is the number of packed bytes
    /// that there are, for [`Refusal::BufferTooShort`] the length needed, and 0 for what is refused as a whole.
    ///
    /// ```
    /// // The version byte stands at offset 1.
    /// assert_eq!(warpboulder::decode_integers(&[1, 2, 0]).unwrap_err().offset(), 1);
    /// ```
    pub const fn offset(&self) -> usize {
        self.offset
    }

    /// Whether the bytes read are at fault, rather than what the caller asked for: true for the refusals of reading,
    /// which are 1 to 19, 25 and 26, but false for the width of a call that reads nothing.
    ///
    /// ```
    /// use warpboulder::{bitpack, decode_integers, encode_integers, Encoding};
    ///
    /// assert!(decode_integers(&[]).unwrap_err().is_corruption());
    ///
    /// let keys: Vec<i64> = (0..16_385).collect();
    /// let error = encode_integers(&keys, Encoding::Dictionary, &mut Vec::new()).unwrap_err();
    /// assert!(!error.is_corruption());
    ///
    /// // A width above 64, once beside the bytes that are read and once as the caller's own.
    /// assert!(bitpack::unpack(&[], 65, 1).unwrap_err().is_corruption());
    /// assert!(!bitpack::pack(&[1], 65, &mut Vec::new()).unwrap_err().is_corruption());
    /// ```
    pub const fn is_corruption(&self) -> bool {
        !self.of_argument && matches!(self.number(), 1..=19 | 25 | 26)
    }

    /// The offset, if the bytes read are at fault.
    ///
    /// ```
    /// let error = warpboulder::decode_integers(&[1, 2, 0]).unwrap_err();
    /// assert_eq!(error.corruption_offset(), Some(1));
    /// ```
    pub const fn corruption_offset(&self) -> Option<u64> {
        if self.is_corruption() {
            Some(self.offset as u64)
        } else {
            None
        }
    }
}

impl PartialEq for Error {
    fn eq(&self, other: &Error) -> bool {
        (self.refusal, self.offset) == (other.refusal, other.offset)
    }
}

impl Eq for Error {}

impl Hash for Error {
    fn hash<H: Hasher>(&self, state: &mut H) {
        (self.refusal, self.offset).hash(state);
    }
}

impl fmt::Display for Error {
    fn fmt(&self, f: &mut fmt::Formatter<'_>) -> fmt::Result {
        write!(f, "{} (refusal {} at offset {})", self.refusal, self.number(), self.offset)
    }
}

impl std::error::Error for Error {}
