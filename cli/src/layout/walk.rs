//! A walk along the bytes of a chunk that notes what each of them is.

use warpboulder::{varint, Error, Refusal};

use super::Part;
use crate::wording::{counted, grouped};

/// A varint that is too long goes on behind so many bytes.
const MAX_VARINT_BYTES: usize = 10;

/// The walk cannot go on. Its last part says why.
#[derive(Debug)]
pub struct Stopped;

pub type Step<T> = Result<T, Stopped>;

/// A number that was read from a varint.
#[derive(Clone, Copy)]
pub struct Read<T> {
    pub value: T,
    /// Whether it is longer than it needs to be, which strict reading refuses.
    pub is_padded: bool,
}

pub struct Walk<'a> {
    chunk: &'a [u8],
    at: usize,
    parts: Vec<Part>,
}

impl<'a> Walk<'a> {
    pub fn new(chunk: &'a [u8]) -> Walk<'a> {
        Walk { chunk, at: 0, parts: Vec::new() }
    }

    pub fn into_parts(self) -> Vec<Part> {
        self.parts
    }

    pub fn at(&self) -> usize {
        self.at
    }

    /// Goes back over bytes that have not been noted.
    pub fn go_back(&mut self, at: usize) {
        self.at = at;
    }

    /// Goes on over bytes that are noted later. Whether they are all there.
    pub fn pass(&mut self, length: usize) -> bool {
        let is_there = length <= self.rest().len();
        if is_there {
            self.at += length;
        }
        is_there
    }

    /// The bytes from here to the end.
    pub fn rest(&self) -> &'a [u8] {
        &self.chunk[self.at..]
    }

    /// Notes the next bytes and goes behind them.
    pub fn part(&mut self, length: usize, what: &str, value: String) {
        self.note(self.at, length, what, value);
        self.at += length;
    }

    /// Notes bytes that the walk has passed.
    pub fn note(&mut self, offset: usize, length: usize, what: &str, value: String) {
        self.parts.push(Part { offset, length, what: what.to_string(), value, is_fault: false });
    }

    pub fn add_to_last(&mut self, words: &str) {
        if let Some(last) = self.parts.last_mut() {
            last.value = format!("{} {words}", last.value);
        }
    }

    /// Ends the walk behind a part whose value cannot be.
    pub fn refuse_last<T>(&mut self, why: &str) -> Step<T> {
        self.add_to_last(why);
        if let Some(last) = self.parts.last_mut() {
            last.is_fault = true;
        }
        Err(Stopped)
    }

    /// Ends the walk at bytes that are not what they should be.
    fn stop<T>(&mut self, length: usize, what: &str, why: String) -> Step<T> {
        let offset = self.at;
        self.at += length;
        self.parts.push(Part { offset, length, what: what.to_string(), value: why, is_fault: true });
        Err(Stopped)
    }

    /// Ends the walk at a part that needs more bytes than there are.
    pub fn stop_cut<T>(&mut self, what: &str, needed: usize) -> Step<T> {
        let there = self.rest().len();
        let why = format!("{} needed, {} there", counted(needed, "byte", "bytes"), grouped(there));
        self.stop(there, what, why)
    }

    pub fn byte(&mut self, what: &str) -> Step<u8> {
        match self.rest().first() {
            Some(&byte) => {
                self.part(1, what, byte.to_string());
                Ok(byte)
            }
            None => self.stop(0, what, "missing".to_string()),
        }
    }

    /// Reads a varint without noting it, and goes behind it.
    pub fn read_uvarint(&mut self) -> Result<Read<u64>, Error> {
        let start = self.at;
        let value = varint::read_uvarint(self.chunk, &mut self.at)?;
        let bytes = &self.chunk[start..self.at];
        Ok(Read { value, is_padded: bytes.len() > 1 && bytes.last() == Some(&0) })
    }

    /// The same of a signed number.
    pub fn read_varint(&mut self) -> Result<Read<i64>, Error> {
        let read = self.read_uvarint()?;
        Ok(Read { value: varint::zigzag_decode(read.value), is_padded: read.is_padded })
    }

    /// An unsigned number as a varint.
    pub fn uvarint(&mut self, what: &str) -> Step<u64> {
        let start = self.at;
        let read = self.read_uvarint();
        self.note_read(start, what, read, grouped)
    }

    /// A signed number as a varint.
    pub fn varint(&mut self, what: &str) -> Step<i64> {
        let start = self.at;
        let read = self.read_varint();
        self.note_read(start, what, read, |key| key.to_string())
    }

    fn note_read<T: Copy>(
        &mut self,
        start: usize,
        what: &str,
        read: Result<Read<T>, Error>,
        in_words: impl Fn(T) -> String,
    ) -> Step<T> {
        match read {
            Ok(read) => {
                self.note(start, self.at - start, what, in_words(read.value) + padding_note(read.is_padded));
                Ok(read.value)
            }
            Err(error) => {
                let there = self.rest().len();
                let is_cut = error.refusal() == Refusal::VarintCut;
                self.stop(if is_cut { there } else { there.min(MAX_VARINT_BYTES) }, what, error.refusal().to_string())
            }
        }
    }
}

pub fn padding_note(is_padded: bool) -> &'static str {
    if is_padded {
        " (padded: strict reading refuses it)"
    } else {
        ""
    }
}
