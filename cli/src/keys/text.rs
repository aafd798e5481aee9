//! Keys as text: one a line. Blank lines, and lines that begin with `#`, are skipped.

use super::lines::Lines;
use super::number::{parse_key, NotAKey};
use super::{describe, Keys};
use crate::failure::Failure;
use crate::input::Opened;

pub fn read(opened: Opened, keys: &mut Keys) -> Result<(), Failure> {
    let mut lines = Lines::new(opened);
    while let Some(line) = lines.next(keys)? {
        let text = line.trim_ascii();
        if text.is_empty() || text.starts_with(b"#") {
            continue;
        }
        match parse_key(text) {
            Ok(key) => keys.push(key)?,
            Err(fault) => {
                let indent = line.len() - line.trim_ascii_start().len();
                let column = indent + column(text, &fault);
                let message = message(text, &fault);
                return Err(keys.fault(&format!("line {}, column {column}", lines.number()), &message));
            }
        }
    }
    Ok(())
}

/// The column in the line's text of the first character that does not fit, from 1.
fn column(text: &[u8], fault: &NotAKey) -> usize {
    match fault {
        NotAKey::NotANumber(place) => String::from_utf8_lossy(&text[..*place]).chars().count() + 1,
        NotAKey::Empty | NotAKey::Beyond64Bits => 1,
    }
}

/// What is wrong, and what to do about it where the file looks like one of another format.
fn message(text: &[u8], fault: &NotAKey) -> String {
    let what = describe(text, fault);
    let is_binary = text.iter().any(|byte| byte.is_ascii_control() && !byte.is_ascii_whitespace());
    match fault {
        NotAKey::NotANumber(_) if is_binary => {
            "this is not text; for keys of 8 bytes give --from binary, and unpack a chunk first".to_string()
        }
        NotAKey::NotANumber(_) if text.contains(&b',') => {
            format!("{what}; for a CSV file give --from csv and --column NAME")
        }
        _ => what,
    }
}
