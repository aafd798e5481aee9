//! The byte map of a chunk: which bytes are what, as far as they can be told apart.
//!
//! The map explains; whether a chunk is accepted is for the library alone to say. Every byte of the chunk is in exactly one part.

mod abridged;
mod delta;
mod dictionary;
mod packed;
mod runs;
mod varints;
mod walk;

use warpboulder::{decode_integers, peek_encoding, Encoding, Refusal, CODEC_VERSION, MAX_CHUNK_ELEMENTS};

use crate::wording::{counted, grouped};
use walk::{Step, Walk};

/// Bytes that stand for one thing, or for several of the same kind.
#[derive(Debug, PartialEq, Eq)]
pub struct Part {
    pub offset: usize,
    pub length: usize,
    pub what: String,
    pub value: String,
    /// Whether the chunk is refused for it.
    pub is_fault: bool,
}

/// The parts of a chunk in the order of their bytes.
pub fn map(chunk: &[u8]) -> Vec<Part> {
    let mut walk = Walk::new(chunk);
    let outcome = header(&mut walk).and_then(|(encoding, count)| body(&mut walk, encoding, count));
    let refusal = decode_integers(chunk).err().map(|error| error.refusal());
    let rest = walk.rest().len();
    if rest > 0 {
        let bytes = counted(rest, "byte", "bytes");
        match (outcome, refusal) {
            (Ok(()), None) => walk.part(rest, "after the body", format!("{bytes} (strict reading refuses them)")),
            (Ok(()), Some(_)) => walk.part(rest, "after the body", bytes),
            (Err(_), _) => walk.part(rest, "not read", bytes),
        }
    }
    let mut parts = walk.into_parts();
    let faulty = refusal.and_then(part_at_fault);
    parts.iter_mut().filter(|part| Some(part.what.as_str()) == faulty).for_each(|part| part.is_fault = true);
    parts
}

/// The part that is refused for values that the walk does not look at.
fn part_at_fault(refusal: Refusal) -> Option<&'static str> {
    match refusal {
        Refusal::RunsBelowCount => Some("runs"),
        Refusal::CodeAboveEntries => Some("packed codes"),
        _ => None,
    }
}

fn header(walk: &mut Walk) -> Step<(Encoding, usize)> {
    let encoding = id(walk)?;
    let version = walk.byte("version")?;
    if version != CODEC_VERSION {
        return walk.refuse_last(&format!("where only {CODEC_VERSION} is known"));
    }
    let count = walk.uvarint("count")?;
    match usize::try_from(count) {
        Ok(count) if count <= MAX_CHUNK_ELEMENTS => Ok((encoding, count)),
        _ => walk.refuse_last(&format!("above the limit of {}", grouped(MAX_CHUNK_ELEMENTS))),
    }
}

fn id(walk: &mut Walk) -> Step<Encoding> {
    let encoding = peek_encoding(walk.rest());
    walk.byte("id")?;
    match encoding {
        Ok(encoding) => {
            walk.add_to_last(encoding.name());
            Ok(encoding)
        }
        Err(_) => walk.refuse_last("which is no encoding of keys"),
    }
}

fn body(walk: &mut Walk, encoding: Encoding, count: usize) -> Step<()> {
    match encoding {
        Encoding::Plain => packed::plain(walk, count),
        Encoding::Varint => varints::keys(walk, count),
        Encoding::BitPacked => packed::bit_packed(walk, count),
        Encoding::FrameOfReference => packed::frame_of_reference(walk, count),
        Encoding::RunLength => runs::runs(walk, count),
        Encoding::Dictionary => dictionary::dictionary(walk, count),
        Encoding::DeltaBinaryPacked => delta::delta(walk, count),
    }
}

#[cfg(test)]
mod tests {
    use super::*;
    use warpboulder::encode_integers;

    /// Refusals whose offset is not the place of the part that cannot be read.
    const ELSEWHERE: [Refusal; 5] = [
        Refusal::NoHeader,
        Refusal::WidthAbove64,
        Refusal::PackedCut,
        Refusal::RunsBelowCount,
        Refusal::CodeAboveEntries,
    ];

    /// The map has every byte once, and it ends where the library refuses.
    fn check(chunk: &[u8]) {
        let parts = map(chunk);
        let mut end = 0;
        for part in &parts {
            assert_eq!(part.offset, end, "{chunk:02x?} {parts:#?}");
            end += part.length;
        }
        assert_eq!(end, chunk.len(), "{chunk:02x?} {parts:#?}");
        let fault = parts.iter().find(|part| part.is_fault);
        match (decode_integers(chunk), fault) {
            (Ok(_), None) => {}
            (Err(error), Some(fault)) => {
                let place = fault.offset..=fault.offset + fault.length;
                let is_placed = ELSEWHERE.contains(&error.refusal()) || place.contains(&error.offset());
                assert!(is_placed, "{chunk:02x?} {error} {parts:#?}");
            }
            (Err(error), None) => panic!("{chunk:02x?} {error} {parts:#?}"),
            (Ok(_), Some(_)) => panic!("{chunk:02x?} is accepted {parts:#?}"),
        }
    }

    /// Chunks of all encodings of columns of several shapes.
    fn chunks() -> Vec<Vec<u8>> {
        let columns: [Vec<i64>; 6] = [
            vec![],
            vec![7],
            vec![i64::MIN, i64::MAX, -1],
            (0..300).map(|index| 1000 + 3 * index).collect(),
            (0..40).map(|index| [5, 5, 5, 900, -12][index % 5]).collect(),
            vec![0; 20],
        ];
        let chunk = |column: &Vec<i64>, encoding| {
            let mut chunk = Vec::new();
            encode_integers(column, encoding, &mut chunk).unwrap();
            chunk
        };
        columns.iter().flat_map(|column| Encoding::ALL.map(|encoding| chunk(column, encoding))).collect()
    }

    #[test]
    fn what_is_written_has_a_whole_map() {
        for chunk in chunks() {
            check(&chunk);
            assert!(map(&chunk).iter().all(|part| !part.is_fault && part.what != "after the body"));
        }
    }

    #[test]
    fn what_is_cut_or_too_long_is_mapped_as_far_as_it_goes() {
        for mut chunk in chunks() {
            (0..chunk.len()).for_each(|length| check(&chunk[..length]));
            chunk.extend([0, 1, 2]);
            check(&chunk);
            let last = map(&chunk).pop().unwrap();
            assert_eq!((last.what.as_str(), last.length), ("after the body", 3));
        }
    }

    #[test]
    fn what_is_damaged_is_mapped_as_far_as_it_goes() {
        for chunk in chunks() {
            for place in 0..chunk.len().min(60) {
                for byte in [0x00, 0x01, 0x02, 0x07, 0x40, 0x41, 0x7F, 0x80, 0x81, 0xFF] {
                    let mut damaged = chunk.clone();
                    damaged[place] = byte;
                    check(&damaged);
                }
            }
        }
    }

    #[test]
    fn short_tails_behind_each_id_are_mapped() {
        for id in 0..=10 {
            check(&[id]);
            for first in 0..=255 {
                for second in [0x00, 0x01, 0x03, 0x40, 0x41, 0x7F, 0x80, 0xFF] {
                    check(&[id, 1, 3, first, second]);
                    check(&[id, first, second]);
                }
            }
        }
    }

    #[test]
    fn varints_of_eleven_bytes_are_told() {
        for id in 1..=7 {
            check(&[&[id, 1], &[0xFF; 11][..]].concat());
            check(&[&[id, 1, 2], &[0xFF; 12][..]].concat());
            check(&[&[id, 1, 2, 1], &[0xFF; 12][..]].concat());
        }
    }
}
