//! The functions of the library, by their names.

#[derive(Clone, Copy, PartialEq, Eq)]
pub enum Call {
    ZigzagEncode,
    ZigzagDecode,
    RequiredWidth,
    UvarintLen,
    VarintLen,
    ReadUvarint,
    ReadVarint,
    WriteUvarint,
    WriteVarint,
    PackedLen,
    Pack,
    Unpack,
    EncodeIntegers,
    DecodeIntegers,
    DecodeNamed,
    AnalyzeIntegers,
    DistinctValues,
    EstimateSizes,
    Analyze,
    MinimumGain,
}

/// In the order of the enum, which is the header's.
pub const NAMES: [&str; 20] = [
    "wb_zigzag_encode",
    "wb_zigzag_decode",
    "wb_required_width",
    "wb_uvarint_len",
    "wb_varint_len",
    "wb_read_uvarint",
    "wb_read_varint",
    "wb_write_uvarint",
    "wb_write_varint",
    "wb_packed_len",
    "wb_pack",
    "wb_unpack",
    "wb_encode_integers",
    "wb_decode_integers",
    "wb_decode_named",
    "wb_analyze_integers",
    "wb_distinct_values",
    "wb_estimate_sizes",
    "wb_analyze",
    "wb_minimum_gain",
];

impl Call {
    pub fn name(self) -> &'static str {
        NAMES[self as usize]
    }
}
