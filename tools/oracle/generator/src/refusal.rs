//! From the original's errors to document 01's numbers.

use basalt_common::{BasaltError, Region};

/// Which call of the original answered.
#[derive(Clone, Copy, Debug, PartialEq, Eq)]
pub enum Call {
    /// `decode_integers`
    Read,
    /// `decode` of one codec
    ReadNamed,
    /// `encode_integers`
    Write,
    /// `varint::read_uvarint`, `varint::read_varint`
    ReadVarint,
    /// `bitpack::pack`
    Pack,
    /// `bitpack::unpack`
    Unpack,
}

/// A refusal in document 01's terms.
#[derive(Clone, Copy, Debug, PartialEq, Eq, PartialOrd, Ord)]
pub struct Refusal {
    pub number: u8,
    /// `None` where the original's error holds no offset.
    pub offset: Option<u64>,
}

/// Which error of the original is which number: the calls that can give it and the fixed parts of its text.
/// `{}` stands for a number or for the name of an encoding.
struct Line {
    number: u8,
    calls: &'static [Call],
    text: &'static str,
}

const READING: &[Call] = &[Call::Read, Call::ReadNamed];
const READING_VARINTS: &[Call] = &[Call::Read, Call::ReadNamed, Call::ReadVarint];
const UNPACKING: &[Call] = &[Call::Read, Call::ReadNamed, Call::Unpack];

const fn line(number: u8, calls: &'static [Call], text: &'static str) -> Line {
    Line { number, calls, text }
}

/// docs/ORACLE.md has this table with the place of each text.
const TABLE: &[Line] = &[
    line(1, &[Call::Read], "buffer does not start with a known encoding id"),
    line(1, &[Call::ReadNamed], "unknown encoding id {}"),
    line(2, &[Call::Read], "{} is a byte encoding, not an integer encoding"),
    line(2, &[Call::Write], "{} does not encode integers"),
    line(3, READING, "buffer of {} bytes is too short to hold a codec header"),
    line(4, &[Call::ReadNamed], "expected {} data but the header says {}"),
    line(5, READING, "codec format version {} is not supported (expected {})"),
    line(6, READING_VARINTS, "buffer ended in the middle of a varint"),
    line(7, READING_VARINTS, "varint is longer than 10 bytes and cannot encode a u64"),
    line(8, READING, "header claims {} elements, above the {} format limit"),
    line(9, READING, "plain body needs {} bytes for {} values, found {}"),
    line(10, READING, "missing bit width"),
    line(10, READING, "missing code width"),
    line(10, READING, "missing delta width"),
    line(11, READING, "frame-of-reference header is truncated"),
    line(12, UNPACKING, "bit width {} is impossible (maximum 64)"),
    line(12, &[Call::Pack], "width {} exceeds 64 bits"),
    line(13, UNPACKING, "bit-packed body needs {} bytes for {} values at {} bits, but only {} are present"),
    line(14, READING, "{} runs cannot describe {} values"),
    line(15, READING, "run lengths sum to more than the {} values in the header"),
    line(16, READING, "header promised {} values but the body held {}"),
    line(17, READING, "dictionary claims {} entries but only {} bytes remain"),
    line(18, READING, "dictionary code {} is outside a {}-entry dictionary"),
    line(19, READING, "implausible delta block size {}"),
];

/// Document 01's number and offset for an error that `call` returned. A text that is not in the table for that
/// call ends the run: then the original has a refusal that 01 does not number.
pub fn refusal(call: Call, error: &BasaltError) -> Refusal {
    let (text, offset) = text_and_offset(error);
    let mut lines = TABLE.iter().filter(|line| line.calls.contains(&call) && fits(line.text, text));
    let (Some(line), None) = (lines.next(), lines.next()) else {
        panic!("{call:?} answers what document 01 does not number: {error}");
    };
    Refusal { number: line.number, offset }
}

fn text_and_offset(error: &BasaltError) -> (&str, Option<u64>) {
    match error {
        BasaltError::Corruption { object, region: Region::EncodedChunk, offset, detail }
            if object == "encoded chunk" =>
        {
            (detail, Some(*offset))
        }
        BasaltError::Internal { location: "bitpack::pack", detail } => (detail, None),
        BasaltError::Unsupported(detail) => (detail, None),
        _ => panic!("an error of a kind that no call here returns: {error}"),
    }
}

fn fits(pattern: &str, text: &str) -> bool {
    let Some((fixed, rest)) = pattern.split_once("{}") else {
        return pattern == text;
    };
    let Some(text) = text.strip_prefix(fixed) else {
        return false;
    };
    let after = text.trim_start_matches(|c: char| c.is_ascii_digit() || c.is_ascii_uppercase() || c == '_');
    after.len() < text.len() && fits(rest, after)
}
