//! Chunks put together piece by piece.

use basalt_encoding::varint::{write_uvarint, write_varint};

#[derive(Clone)]
pub struct Pieces(Vec<u8>);

impl Pieces {
    /// Id and version, no count yet.
    pub fn of(id: u8) -> Self {
        Pieces(vec![id, 1])
    }

    /// A whole header.
    pub fn header(id: u8, count: u64) -> Self {
        Pieces::of(id).unsigned(count)
    }

    pub fn byte(mut self, byte: u8) -> Self {
        self.0.push(byte);
        self
    }

    pub fn bytes(mut self, bytes: &[u8]) -> Self {
        self.0.extend(bytes);
        self
    }

    /// A key as eight bytes.
    pub fn word(self, key: i64) -> Self {
        self.bytes(&key.to_le_bytes())
    }

    pub fn unsigned(mut self, number: u64) -> Self {
        write_uvarint(number, &mut self.0);
        self
    }

    pub fn signed(mut self, key: i64) -> Self {
        write_varint(key, &mut self.0);
        self
    }

    pub fn done(self) -> Vec<u8> {
        self.0
    }
}

/// The varint of a number in just `length` bytes, overlong where fewer would do.
pub fn varint_of_length(number: u64, length: usize) -> Vec<u8> {
    (0..length)
        .map(|group| {
            let low = number.checked_shr(7 * group as u32).unwrap_or(0) as u8 & 0x7f;
            let goes_on = if group + 1 < length { 0x80 } else { 0 };
            low | goes_on
        })
        .collect()
}
