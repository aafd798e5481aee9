//! Keys as binary: 8 bytes each, little-endian, and nothing else.

use std::io::Read;

use warpboulder::MAX_CHUNK_ELEMENTS;

use super::Keys;
use crate::failure::Failure;
use crate::input::Opened;
use crate::wording::grouped;

const KEY_BYTES: usize = 8;
const BUFFER_BYTES: usize = 1 << 18;

pub fn read(mut opened: Opened, keys: &mut Keys) -> Result<(), Failure> {
    if let Some(length) = opened.length {
        check_length(length, keys)?;
    }
    let mut buffer = vec![0; BUFFER_BYTES];
    let mut total = 0;
    let mut kept = 0;
    loop {
        let count = opened.reader.read(&mut buffer[kept..]);
        let count = match count {
            Err(error) if error.kind() == std::io::ErrorKind::Interrupted => continue,
            other => other.map_err(|error| keys.input.cannot_be_read(&error))?,
        };
        total += count as u64;
        if count == 0 {
            break;
        }
        kept = push_whole_keys(&mut buffer, kept + count, keys)?;
    }
    // What was read may be of another length than the system said before.
    check_length(total, keys)
}

/// Takes the whole keys from the front of the buffer and moves the bytes of a key that is not all there yet to its front. Says how
/// many these are.
fn push_whole_keys(buffer: &mut [u8], filled: usize, keys: &mut Keys) -> Result<usize, Failure> {
    let (whole, rest) = buffer[..filled].as_chunks::<KEY_BYTES>();
    for bytes in whole {
        keys.push(i64::from_le_bytes(*bytes))?;
    }
    let rest = rest.len();
    buffer.copy_within(filled - rest..filled, 0);
    Ok(rest)
}

fn check_length(length: u64, keys: &Keys) -> Result<(), Failure> {
    if !length.is_multiple_of(KEY_BYTES as u64) {
        return Err(Failure::Failed(format!(
            "{} has {} bytes, which is no multiple of {KEY_BYTES}: binary keys have {KEY_BYTES} bytes each.",
            keys.input.name(),
            grouped(length)
        )));
    }
    let count = length / KEY_BYTES as u64;
    if count > MAX_CHUNK_ELEMENTS as u64 {
        return Err(keys.too_many(Some(count)));
    }
    Ok(())
}
