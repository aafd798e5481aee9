//! Memory for what the library's calls need. Where there is none they end the program, so it is asked for before.

use warpboulder::{varint, MAX_CHUNK_ELEMENTS};

use crate::failure::Failure;
use crate::wording::counted;

/// Where its runs have one key, a RunLength chunk has up to 11 bytes a key; no other encoding has more.
const MOST_BYTES_A_KEY: usize = 11;

/// Headers, totals, widths and the like, in any encoding.
const MOST_OTHER_BYTES: usize = 64;

/// An empty chunk with room for so many keys in any encoding.
pub fn room_for_chunk(count: usize) -> Result<Vec<u8>, Failure> {
    let mut chunk = Vec::new();
    let room = MOST_BYTES_A_KEY * count + MOST_OTHER_BYTES;
    chunk.try_reserve_exact(room).map_err(|_| not_enough(&format!("a chunk of {}", counted(count, "key", "keys"))))?;
    Ok(chunk)
}

/// Whether the keys that a chunk claims to have can be held. A claim above the limit is for the library to refuse.
pub fn check_for_keys(chunk: &[u8]) -> Result<(), Failure> {
    let claimed = varint::read_uvarint(chunk, &mut 2).unwrap_or(0);
    let count = usize::try_from(claimed).ok().filter(|count| *count <= MAX_CHUNK_ELEMENTS).unwrap_or(0);
    let answer = Vec::<i64>::new().try_reserve_exact(count);
    answer.map_err(|_| not_enough(&format!("the {} of the chunk", counted(count, "key", "keys"))))
}

fn not_enough(what: &str) -> Failure {
    Failure::Failed(format!("there is not enough memory for {what}."))
}
