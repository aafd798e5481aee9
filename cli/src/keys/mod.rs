//! Columns of keys, read from text, from a column of a CSV file, or from binary.

mod binary;
mod csv;
mod lines;
mod number;
mod rows;
mod text;

use std::ffi::OsStr;
use std::path::Path;

use warpboulder::{Refusal, MAX_CHUNK_ELEMENTS};

use crate::failure::Failure;
use crate::input::Input;
use crate::progress::Progress;
use crate::wording::{grouped, quoted};
use number::NotAKey;

/// How keys are written down.
#[derive(Clone, Copy, Debug, PartialEq, Eq)]
pub enum Format {
    Text,
    Csv,
    Binary,
}

impl Format {
    /// What a file's ending says: `.csv` CSV, `.bin` and `.i64` binary, any other text.
    pub fn of_ending(path: &Path) -> Format {
        let ending = path.extension().and_then(OsStr::to_str).unwrap_or("").to_ascii_lowercase();
        match ending.as_str() {
            "csv" => Format::Csv,
            "bin" | "i64" => Format::Binary,
            _ => Format::Text,
        }
    }
}

/// Which column of a CSV file is asked for.
#[derive(Clone, Debug, PartialEq, Eq)]
pub enum Selector {
    Name(String),
    /// Counted from 1.
    Number(usize),
}

/// Where keys are read from, and how.
#[derive(Debug)]
pub struct Source {
    pub input: Input,
    pub format: Format,
    /// Only for CSV.
    pub selector: Option<Selector>,
    /// Only for CSV: whether the first row names the columns, where that is told.
    pub has_header: Option<bool>,
}

/// Keys that were read, with what reports call them.
pub struct Column {
    pub keys: Vec<i64>,
    pub title: String,
}

impl Source {
    pub fn read(&self, progress: &Progress) -> Result<Column, Failure> {
        let mut keys = Keys { input: &self.input, values: Vec::new() };
        let opened = self.input.open(progress)?;
        let mut title = self.input.name();
        match self.format {
            Format::Text => text::read(opened, &mut keys)?,
            Format::Binary => binary::read(opened, &mut keys)?,
            Format::Csv => title += &csv::read(opened, self, &mut keys)?,
        }
        Ok(Column { keys: keys.values, title })
    }
}

/// The keys read so far: never more than a chunk can hold.
struct Keys<'a> {
    input: &'a Input,
    values: Vec<i64>,
}

impl Keys<'_> {
    fn push(&mut self, key: i64) -> Result<(), Failure> {
        if self.values.len() == MAX_CHUNK_ELEMENTS {
            return Err(self.too_many(None));
        }
        if self.values.len() == self.values.capacity() {
            self.values.try_reserve(self.values.len().max(1024)).map_err(|_| self.no_memory())?;
        }
        self.values.push(key);
        Ok(())
    }

    /// More keys than a chunk holds, with their number where it is known without reading them all.
    fn too_many(&self, count: Option<u64>) -> Failure {
        let count = count.map_or("more keys".to_string(), |count| format!("{} keys, more", grouped(count)));
        Failure::Failed(format!(
            "{} has {count} than the {} that a chunk holds (refusal {}); split the column into parts.",
            self.input.name(),
            grouped(MAX_CHUNK_ELEMENTS),
            Refusal::ColumnAboveLimit.number()
        ))
    }

    fn no_memory(&self) -> Failure {
        Failure::Failed(format!("there is not enough memory for the keys of {}.", self.input.name()))
    }

    /// A fault of the input at a place, which is a line or a line with a column.
    fn fault(&self, place: &str, what: &str) -> Failure {
        Failure::Failed(format!("{}, {place}: {what}.", self.input.name()))
    }
}

/// What is wrong with a text that is no key.
fn describe(text: &[u8], fault: &NotAKey) -> String {
    match fault {
        NotAKey::Empty => "there is no key, the field is empty".to_string(),
        NotAKey::NotANumber(_) => format!("{} is not a whole number", quoted(text)),
        NotAKey::Beyond64Bits => format!(
            "{} is beyond 64 bits; a key is a number from {} to {}",
            quoted(text),
            grouped(i64::MIN),
            grouped(i64::MAX)
        ),
    }
}

#[cfg(test)]
mod tests {
    use super::*;

    #[test]
    fn the_ending_says_the_format() {
        for (path, format) in [
            ("a.csv", Format::Csv),
            ("dir.bin/A.CSV", Format::Csv),
            ("a.bin", Format::Binary),
            ("a.i64", Format::Binary),
            ("a.txt", Format::Text),
            ("csv", Format::Text),
            (".csv", Format::Text),
        ] {
            assert_eq!(Format::of_ending(Path::new(path)), format, "{path}");
        }
    }
}
