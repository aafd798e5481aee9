//! One codec for each encoding, behind the trait [`Codec`].

use crate::encoding::Encoding;
use crate::error::Result;
use crate::integer::{decode_named, encode_integers};

/// A codec: what writes chunks of one encoding and reads them back.
///
/// ```
/// use warpboulder::{Codec, Encoding, RunLengthCodec};
///
/// let values = vec![7i64, 7, 7, 7, 9, 9];
/// let mut buf = Vec::new();
/// RunLengthCodec.encode(&values, &mut buf)?;
/// assert_eq!(buf[0], Encoding::RunLength.as_u8());
/// assert_eq!(RunLengthCodec.decode(&buf)?, values);
/// # Ok::<(), warpboulder::Error>(())
/// ```
pub trait Codec {
    /// What is written.
    type Input: ?Sized;
    /// What is read.
    type Output;

    /// The encoding, whose id the chunks begin with.
    ///
    /// ```
    /// use warpboulder::{Codec, Encoding, VarintCodec};
    ///
    /// assert_eq!(VarintCodec.encoding(), Encoding::Varint);
    /// ```
    fn encoding(&self) -> Encoding;

    /// Appends the chunk of `input` to `out`.
    ///
    /// # Errors
    ///
    /// As [`encode_integers`]. Then `out` is as it was.
    ///
    /// ```
    /// use warpboulder::{BitPackedCodec, Codec};
    ///
    /// let mut out = vec![0xFF];
    /// BitPackedCodec.encode(&[5, 5, 5, 5], &mut out)?;
    /// assert_eq!(out, [0xFF, 0x03, 0x01, 0x04, 0x04, 0xAA, 0xAA]);
    /// # Ok::<(), warpboulder::Error>(())
    /// ```
    fn encode(&self, input: &Self::Input, out: &mut Vec<u8>) -> Result<()>;

    /// Reads a chunk of this encoding. Bytes after its body are ignored.
    ///
    /// # Errors
    ///
    /// As [`decode_named`].
    ///
    /// ```
    /// use warpboulder::{BitPackedCodec, Codec};
    ///
    /// assert_eq!(BitPackedCodec.decode(&[0x03, 0x01, 0x04, 0x04, 0xAA, 0xAA])?, [5, 5, 5, 5]);
    /// # Ok::<(), warpboulder::Error>(())
    /// ```
    fn decode(&self, bytes: &[u8]) -> Result<Self::Output>;

    /// The chunk of `input`, in a vector of its own.
    ///
    /// # Errors
    ///
    /// As [`Codec::encode`].
    ///
    /// ```
    /// use warpboulder::{BitPackedCodec, Codec};
    ///
    /// assert_eq!(BitPackedCodec.encode_to_vec(&[0])?, [0x03, 0x01, 0x01, 0x00]);
    /// # Ok::<(), warpboulder::Error>(())
    /// ```
    fn encode_to_vec(&self, input: &Self::Input) -> Result<Vec<u8>> {
        let mut out = Vec::new();
        self.encode(input, &mut out)?;
        Ok(out)
    }
}

/// Makes the codec of one encoding.
macro_rules! codec {
    ($(#[$doc:meta])* $name:ident $encoding:ident) => {
        $(#[$doc])*
        #[derive(Debug, Clone, Copy, Default)]
        pub struct $name;

        impl Codec for $name {
            type Input = [i64];
            type Output = Vec<i64>;

            fn encoding(&self) -> Encoding {
                Encoding::$encoding
            }

            fn encode(&self, input: &[i64], out: &mut Vec<u8>) -> Result<()> {
                encode_integers(input, self.encoding(), out)
            }

            fn decode(&self, bytes: &[u8]) -> Result<Vec<i64>> {
                decode_named(bytes, self.encoding())
            }
        }
    };
}

codec! {
    /// Eight bytes a key, little-endian: for keys that nothing shortens, and the fastest to read.
    ///
    /// ```
    /// use warpboulder::{Codec, PlainCodec};
    ///
    /// assert_eq!(PlainCodec.encode_to_vec(&[])?, [0x01, 0x01, 0x00]);
    /// # Ok::<(), warpboulder::Error>(())
    /// ```
    PlainCodec Plain
}
codec! {
    /// A signed varint for each key: for mostly small keys with some large ones among them.
    ///
    /// ```
    /// use warpboulder::{Codec, VarintCodec};
    ///
    /// assert_eq!(VarintCodec.encode_to_vec(&[-1, 150])?, [0x02, 0x01, 0x02, 0x01, 0xAC, 0x02]);
    /// # Ok::<(), warpboulder::Error>(())
    /// ```
    VarintCodec Varint
}
codec! {
    /// The ZigZags of the keys, packed at one width: for small keys of either sign.
    ///
    /// ```
    /// use warpboulder::{BitPackedCodec, Codec};
    ///
    /// assert_eq!(BitPackedCodec.encode_to_vec(&[5, 5, 5, 5])?, [0x03, 0x01, 0x04, 0x04, 0xAA, 0xAA]);
    /// # Ok::<(), warpboulder::Error>(())
    /// ```
    BitPackedCodec BitPacked
}
codec! {
    /// The least key, and the differences from it, packed at one width: for large keys that lie close together.
    ///
    /// ```
    /// use warpboulder::{Codec, FrameOfReferenceCodec};
    ///
    /// let chunk = FrameOfReferenceCodec.encode_to_vec(&[1_000_000, 1_000_003])?;
    /// assert_eq!(chunk.len(), 3 + 8 + 1 + 1); // header, least key, width 2, packed differences
    /// # Ok::<(), warpboulder::Error>(())
    /// ```
    FrameOfReferenceCodec FrameOfReference
}
codec! {
    /// Runs of equal keys, the key and the length of each: for columns in long runs.
    ///
    /// ```
    /// use warpboulder::{Codec, RunLengthCodec};
    ///
    /// assert_eq!(RunLengthCodec.encode_to_vec(&[5, 5, 5, 5])?, [0x05, 0x01, 0x04, 0x01, 0x0A, 0x04]);
    /// # Ok::<(), warpboulder::Error>(())
    /// ```
    RunLengthCodec RunLength
}
codec! {
    /// The distinct keys, rising, and a packed code for each key: for few distinct keys in no order.
    ///
    /// ```
    /// use warpboulder::{Codec, DictionaryCodec};
    ///
    /// assert_eq!(DictionaryCodec.encode_to_vec(&[5, 5, 5, 5])?, [0x06, 0x01, 0x04, 0x01, 0x0A, 0x00]);
    /// # Ok::<(), warpboulder::Error>(())
    /// ```
    DictionaryCodec Dictionary
}
codec! {
    /// The first key, and blocks of packed differences from key to key: for keys that rise or fall steadily.
    ///
    /// ```
    /// use warpboulder::{Codec, DeltaBinaryPackedCodec};
    ///
    /// let keys: Vec<i64> = (0..1000).collect();
    /// assert!(DeltaBinaryPackedCodec.encode_to_vec(&keys)?.len() < 30);
    /// # Ok::<(), warpboulder::Error>(())
    /// ```
    DeltaBinaryPackedCodec DeltaBinaryPacked
}
