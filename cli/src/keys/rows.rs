//! Rows of a CSV file with their fields, as RFC 4180 has them: separated by commas; a field in quotation marks may have commas, line
//! ends and, doubled, quotation marks.

use super::lines::{too_long, Lines, MAX_LINE_BYTES};
use super::Keys;
use crate::failure::Failure;
use crate::input::Opened;

/// The fields of a row, without the quotation marks around them.
#[derive(Default)]
pub struct Row {
    /// All fields one after the other.
    bytes: Vec<u8>,
    /// Where each field ends.
    ends: Vec<usize>,
    line: u64,
}

impl Row {
    /// The line in which the row begins, from 1.
    pub fn line(&self) -> u64 {
        self.line
    }

    pub fn count(&self) -> usize {
        self.ends.len()
    }

    /// The field at an index from 0.
    pub fn field(&self, index: usize) -> Option<&[u8]> {
        let end = *self.ends.get(index)?;
        let start = if index == 0 { 0 } else { self.ends[index - 1] };
        Some(&self.bytes[start..end])
    }

    fn begin(&mut self, line: u64) {
        self.bytes.clear();
        self.ends.clear();
        self.line = line;
    }

    fn end_field(&mut self) {
        self.ends.push(self.bytes.len());
    }

    /// Takes one more line of the row. None where something follows a closing quotation mark.
    fn split(&mut self, line: &[u8], mut state: State) -> Option<State> {
        for &byte in line {
            state = match (state, byte) {
                (State::Quoted, b'"') => State::Closed,
                (State::Quoted, _) => self.push(byte, State::Quoted),
                (_, b',') => {
                    self.end_field();
                    State::Start
                }
                (State::Start, b'"') => State::Quoted,
                (State::Closed, b'"') => self.push(byte, State::Quoted),
                (State::Closed, _) => return None,
                (State::Start | State::Bare, _) => self.push(byte, State::Bare),
            };
        }
        Some(state)
    }

    fn push(&mut self, byte: u8, state: State) -> State {
        self.bytes.push(byte);
        state
    }
}

/// Where in a field the reading is.
#[derive(Clone, Copy, PartialEq, Eq)]
enum State {
    Start,
    /// In a field without quotation marks.
    Bare,
    Quoted,
    /// After a quotation mark within a quoted field, which closes it unless another one follows.
    Closed,
}

pub struct Rows<'a> {
    lines: Lines<'a>,
    row: Row,
}

impl<'a> Rows<'a> {
    pub fn new(opened: Opened<'a>) -> Rows<'a> {
        Rows { lines: Lines::new(opened), row: Row::default() }
    }

    /// Reads the next row that is not blank.
    pub fn next(&mut self, keys: &Keys) -> Result<Option<&Row>, Failure> {
        loop {
            let number = self.lines.number() + 1;
            let Some(line) = self.lines.next(keys)? else {
                return Ok(None);
            };
            if !line.trim_ascii().is_empty() {
                self.row.begin(number);
                let state = self.row.split(line, State::Start);
                return self.finish(state, keys).map(Some);
            }
        }
    }

    /// Reads on where a line ends within quotation marks.
    fn finish(&mut self, mut state: Option<State>, keys: &Keys) -> Result<&Row, Failure> {
        let place = format!("line {}", self.row.line);
        while state == Some(State::Quoted) {
            self.row.bytes.push(b'\n');
            if self.row.bytes.len() >= MAX_LINE_BYTES {
                return Err(keys.fault(&place, &too_long("the row")));
            }
            let Some(line) = self.lines.next(keys)? else {
                return Err(keys.fault(&place, "a quotation mark in this row is not closed"));
            };
            state = self.row.split(line, State::Quoted);
        }
        if state.is_none() {
            return Err(keys.fault(&place, "after a closing quotation mark only a comma may follow"));
        }
        self.row.end_field();
        Ok(&self.row)
    }
}

#[cfg(test)]
mod tests {
    use super::*;

    fn fields(line: &str) -> Option<Vec<String>> {
        let mut row = Row::default();
        if row.split(line.as_bytes(), State::Start)? == State::Quoted {
            return None;
        }
        row.end_field();
        let field = |index| String::from_utf8_lossy(row.field(index).unwrap_or(b"?")).into_owned();
        Some((0..row.count()).map(field).collect())
    }

    #[test]
    fn commas_separate_fields() {
        assert_eq!(fields("a,b,c"), Some(vec!["a".into(), "b".into(), "c".into()]));
        assert_eq!(fields(",,"), Some(vec!["".into(), "".into(), "".into()]));
        assert_eq!(fields("5"), Some(vec!["5".into()]));
    }

    #[test]
    fn quoted_fields_have_commas_and_doubled_quotation_marks() {
        assert_eq!(fields(r#""a,b","say ""no""",3"#), Some(vec!["a,b".into(), "say \"no\"".into(), "3".into()]));
        assert_eq!(fields(r#""",x"#), Some(vec!["".into(), "x".into()]));
        assert_eq!(fields(r#"5" pipe,x"#), Some(vec!["5\" pipe".into(), "x".into()]));
    }

    #[test]
    fn what_is_not_closed_or_follows_a_closing_mark_is_no_row() {
        assert_eq!(fields(r#""a,b"#), None);
        assert_eq!(fields(r#""a"b,c"#), None);
    }
}
