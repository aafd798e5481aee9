//! Ties the original files together: modules and names, nothing else.

pub mod bitpack;
mod codec;
mod integer;
mod stats;
pub mod varint;

pub use codec::{peek_encoding, Codec, Encoding, CODEC_VERSION, MAX_CHUNK_ELEMENTS};
pub use integer::{
    decode_integers, encode_integers, BitPackedCodec, DeltaBinaryPackedCodec, DictionaryCodec,
    FrameOfReferenceCodec, PlainCodec, RunLengthCodec, VarintCodec, DELTA_BLOCK_SIZE,
};
pub use stats::{
    analyze, analyze_byte_column, analyze_integers, choose_integer_encoding, estimate_sizes,
    ByteLayout, BytePlan, Cardinality, EncodingPlan, IntegerStats, PlanReason, SizeEstimates,
    Sortedness, MAX_DICTIONARY_CARDINALITY,
};
