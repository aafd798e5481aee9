//! Chunks, read whole.

use std::io::Read;

use crate::failure::Failure;
use crate::input::Input;
use crate::progress::Progress;
use crate::wording::grouped;

/// More bytes than this are not read. A chunk that is written has at most 11 bytes for each of 2^24 keys, and no chunk of another
/// writer needs more than 20, but for a dictionary of entries that no key uses.
const MAX_CHUNK_BYTES: u64 = 1 << 30;

pub fn read(input: &Input, progress: &Progress) -> Result<Vec<u8>, Failure> {
    let opened = input.open(progress)?;
    if opened.length.is_some_and(|length| length > MAX_CHUNK_BYTES) {
        return Err(too_long(input));
    }
    let mut chunk = Vec::new();
    let mut limited = opened.reader.take(MAX_CHUNK_BYTES + 1);
    limited.read_to_end(&mut chunk).map_err(|error| input.cannot_be_read(&error))?;
    if chunk.len() as u64 > MAX_CHUNK_BYTES {
        return Err(too_long(input));
    }
    Ok(chunk)
}

fn too_long(input: &Input) -> Failure {
    Failure::Failed(format!(
        "{} has more than {} bytes, which is more than a chunk of keys needs; it is not read.",
        input.name(),
        grouped(MAX_CHUNK_BYTES)
    ))
}
