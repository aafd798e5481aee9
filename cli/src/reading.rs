//! Reading a chunk, named or not, strictly or not, and the verdict on it.

use warpboulder::{
    decode_integers, decode_integers_strict, decode_named, decode_named_strict, Encoding, Error, Result,
};

pub fn decode(chunk: &[u8], encoding: Option<Encoding>, is_strict: bool) -> Result<Vec<i64>> {
    match (encoding, is_strict) {
        (None, false) => decode_integers(chunk),
        (None, true) => decode_integers_strict(chunk),
        (Some(encoding), false) => decode_named(chunk, encoding),
        (Some(encoding), true) => decode_named_strict(chunk, encoding),
    }
}

/// Whether a chunk is accepted.
pub struct Verdict {
    /// How many keys there are, or why there are none.
    pub count: Result<usize>,
    /// Why strict reading refuses what is accepted otherwise.
    pub strict_refusal: Option<Error>,
}

/// Reads a chunk and, where the question is not whether it can be read strictly, asks that as well.
pub fn judge(chunk: &[u8], encoding: Option<Encoding>, is_strict: bool) -> Verdict {
    let strict = decode(chunk, encoding, true).map(|keys| keys.len());
    match strict {
        Err(error) if !is_strict => {
            let count = decode(chunk, encoding, false).map(|keys| keys.len());
            Verdict { strict_refusal: count.is_ok().then_some(error), count }
        }
        count => Verdict { count, strict_refusal: None },
    }
}

/// A refusal as a verdict: `refused with 13 at offset 12: there are ...`.
pub fn refusal_in_words(error: &Error) -> String {
    format!("refused with {} at offset {}: {}", error.number(), error.offset(), error.refusal())
}
