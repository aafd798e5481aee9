//! Lines of a text, one at a time and of bounded length.

use std::io::{BufRead, BufReader, Read};

use super::Keys;
use crate::failure::Failure;
use crate::input::Opened;
use crate::progress::Counted;
use crate::wording::grouped;

/// A line with its end, or a row of a CSV file, with as many bytes as this is no text that people keep keys in. The bound keeps a
/// file without line ends from being read into memory whole.
pub const MAX_LINE_BYTES: usize = 1 << 20;

const BUFFER_BYTES: usize = 1 << 18;
const BYTE_ORDER_MARK: &[u8] = b"\xEF\xBB\xBF";

pub struct Lines<'a> {
    reader: BufReader<Counted<'a, Box<dyn Read>>>,
    line: Vec<u8>,
    number: u64,
}

impl<'a> Lines<'a> {
    pub fn new(opened: Opened<'a>) -> Lines<'a> {
        Lines { reader: BufReader::with_capacity(BUFFER_BYTES, opened.reader), line: Vec::new(), number: 0 }
    }

    /// The number of the line that was read last, from 1.
    pub fn number(&self) -> u64 {
        self.number
    }

    /// Reads the next line. It is handed over without its end, which is LF or CR LF, and the first without a byte order mark.
    pub fn next(&mut self, keys: &Keys) -> Result<Option<&[u8]>, Failure> {
        self.line.clear();
        let mut limited = (&mut self.reader).take(MAX_LINE_BYTES as u64);
        let count = limited.read_until(b'\n', &mut self.line).map_err(|error| keys.input.cannot_be_read(&error))?;
        if count == 0 {
            return Ok(None);
        }
        self.number += 1;
        let mut line = match self.line.strip_suffix(b"\n") {
            Some(line) => line,
            None if count == MAX_LINE_BYTES => {
                return Err(keys.fault(&format!("line {}", self.number), &too_long("it")));
            }
            None => &self.line,
        };
        line = line.strip_suffix(b"\r").unwrap_or(line);
        if self.number == 1 {
            line = line.strip_prefix(BYTE_ORDER_MARK).unwrap_or(line);
        }
        Ok(Some(line))
    }
}

/// What is wrong with a line or row of too many bytes.
pub fn too_long(what: &str) -> String {
    format!("{what} has {} bytes or more, so this does not look like a file of keys", grouped(MAX_LINE_BYTES))
}
