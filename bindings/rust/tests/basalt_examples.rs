//! The examples of basalt's own documentation, with `warpboulder` for its crates. They must compile and hold as they
//! stand.

use warpboulder::{analyze, decode_integers, Codec, Encoding, FrameOfReferenceCodec, RunLengthCodec};
use warpboulder::{CompressionLevel, Result};

#[test]
fn a_codec_writes_its_id_and_reads_its_own_chunk() -> Result<()> {
    let values = vec![7i64, 7, 7, 7, 9, 9];
    let mut buf = Vec::new();
    RunLengthCodec.encode(&values, &mut buf)?;
    assert_eq!(buf[0], Encoding::RunLength.as_u8());
    assert_eq!(RunLengthCodec.decode(&buf)?, values);
    Ok(())
}

#[test]
fn a_chunk_says_which_encoding_it_is_in() -> Result<()> {
    let values = vec![1_000_000i64, 1_000_004, 1_000_002];
    let buf = FrameOfReferenceCodec.encode_to_vec(&values)?;
    assert!(buf.len() < values.len() * 8);
    assert_eq!(decode_integers(&buf)?, values);
    Ok(())
}

#[test]
fn delta_wins_on_rising_ids_and_plain_on_noise() {
    let ids: Vec<i64> = (0..10_000).map(|i| 1_000_000 + i * 2).collect();
    let plan = analyze(&ids, CompressionLevel::BALANCED);
    assert_eq!(plan.encoding, Encoding::DeltaBinaryPacked);
    assert!(plan.estimated_ratio() > 50.0);

    let mut state = 0x2545_F491_4F6C_DD1Du64;
    let noise: Vec<i64> = (0..10_000)
        .map(|_| {
            state = state.wrapping_mul(6_364_136_223_846_793_005).wrapping_add(1);
            state as i64
        })
        .collect();
    assert_eq!(analyze(&noise, CompressionLevel::BALANCED).encoding, Encoding::Plain);
}
