//! Keys as one column of a CSV file. Blank lines are skipped, and so is the header line, which is the first row where it names the
//! columns. A row must not be taken for a header by mistake, nor a header for a row: where it cannot be told, it is asked for.

use super::number::{parse_key, NotAKey};
use super::rows::{Row, Rows};
use super::{describe, Keys, Selector, Source};
use crate::failure::Failure;
use crate::input::Opened;
use crate::wording::{counted, grouped, listed, quoted, shown};

/// So many columns are named in a message.
const NAMED_COLUMNS: usize = 12;

/// The column that was found.
struct Chosen {
    /// Counted from 0.
    index: usize,
    /// From the header line, if there is one.
    name: Option<String>,
}

impl Chosen {
    /// `column depot`, or `column 2` where there is no header line.
    fn title(&self) -> String {
        match &self.name {
            Some(name) if !name.is_empty() => format!("column {name}"),
            _ => format!("column {}", self.index + 1),
        }
    }
}

/// Reads the column and says what to call it.
pub fn read(opened: Opened, source: &Source, keys: &mut Keys) -> Result<String, Failure> {
    let mut rows = Rows::new(opened);
    let Some(first) = rows.next(keys)? else {
        return match &source.selector {
            Some(Selector::Name(name)) => Err(no_column(&format!("{} is empty", keys.input.name()), name)),
            _ => Ok(String::new()),
        };
    };
    let chosen = choose(first, source, keys)?;
    let fields = first.count();
    if chosen.name.is_none() {
        push_key(first, &chosen, keys)?;
    }
    while let Some(row) = rows.next(keys)? {
        check_count(row, fields, keys)?;
        push_key(row, &chosen, keys)?;
    }
    Ok(format!(", {}", chosen.title()))
}

/// A row with more or fewer fields than the first has other things in its columns.
fn check_count(row: &Row, fields: usize, keys: &Keys) -> Result<(), Failure> {
    if row.count() == fields {
        return Ok(());
    }
    let there = counted(row.count(), "field", "fields");
    let what = format!("it has {there}, and the first row has {}", grouped(fields));
    Err(keys.fault(&format!("line {}", row.line()), &what))
}

fn push_key(row: &Row, chosen: &Chosen, keys: &mut Keys) -> Result<(), Failure> {
    let text = text_of(row, chosen.index);
    match parse_key(text) {
        Ok(key) => keys.push(key),
        Err(fault) => Err(keys.fault(&format!("line {}, {}", row.line(), chosen.title()), &describe(text, &fault))),
    }
}

fn choose(first: &Row, source: &Source, keys: &Keys) -> Result<Chosen, Failure> {
    let index = index_of_column(first, source.selector.as_ref(), keys)?;
    let is_header = match (source.has_header, &source.selector) {
        (Some(is_header), _) => is_header,
        (None, Some(Selector::Name(_))) => true,
        (None, _) => is_header(first, index).ok_or_else(|| header_or_not(first, index, keys))?,
    };
    Ok(Chosen { index, name: is_header.then(|| shown_name(first, index)) })
}

/// Whether the first row names the columns, as far as what stands there tells. None where there is a number in the chosen column and
/// a name in another: it may be a name made of digits, as a year, or a table of texts and keys.
fn is_header(first: &Row, index: usize) -> Option<bool> {
    let mut texts = (0..first.count()).map(|index| text_of(first, index));
    let chosen = text_of(first, index);
    match parse_key(chosen) {
        Ok(_) | Err(NotAKey::Beyond64Bits) => (!texts.any(begins_as_name)).then_some(false),
        Err(NotAKey::Empty) => Some(!texts.any(is_numeric)),
        // What begins otherwise, as `12x` or `1.5`, is more likely a bad key than a name, and a bad key must not vanish.
        Err(NotAKey::NotANumber(_)) => Some(begins_as_name(chosen)),
    }
}

fn begins_as_name(text: &[u8]) -> bool {
    let first = String::from_utf8_lossy(text).chars().next();
    first.is_some_and(|first| first.is_alphabetic() || first == '_')
}

/// Whether it is a number of any kind, not only a key.
fn is_numeric(text: &[u8]) -> bool {
    // Rust takes `inf` and `nan` for numbers.
    !begins_as_name(text) && std::str::from_utf8(text).is_ok_and(|text| text.parse::<f64>().is_ok())
}

fn header_or_not(first: &Row, index: usize, keys: &Keys) -> Failure {
    Failure::Usage(format!(
        "{}, line {}: column {} has a number there and another column has text, so it cannot be told whether this row names the \
         columns; give --header yes or --header no.",
        keys.input.name(),
        first.line(),
        index + 1
    ))
}

/// The index of the column that is asked for, from 0.
fn index_of_column(first: &Row, selector: Option<&Selector>, keys: &Keys) -> Result<usize, Failure> {
    match selector {
        Some(Selector::Name(name)) => index_of_name(first, name, keys),
        Some(Selector::Number(number)) if *number > first.count() => {
            let columns = counted(first.count(), "column", "columns");
            Err(Failure::Failed(format!(
                "{} has {columns} and so no column {number}; the columns are {}.",
                keys.input.name(),
                names(first)
            )))
        }
        Some(Selector::Number(number)) => Ok(number - 1),
        None if first.count() == 1 => Ok(0),
        None => Err(several_columns(first, keys)),
    }
}

fn index_of_name(first: &Row, name: &str, keys: &Keys) -> Result<usize, Failure> {
    let wanted = name.trim().as_bytes();
    let has_name = |index: &usize| text_of(first, *index) == wanted;
    let found: Vec<usize> = (0..first.count()).filter(has_name).collect();
    match found[..] {
        [index] => Ok(index),
        [] => Err(no_column(&format!("the columns of {} are {}", keys.input.name(), names(first)), name)),
        [index, other, ..] => Err(Failure::Failed(format!(
            "{} has more than one column named {}; give the number, as --column {} or --column {}.",
            keys.input.name(),
            quoted(wanted),
            index + 1,
            other + 1
        ))),
    }
}

fn no_column(reason: &str, name: &str) -> Failure {
    Failure::Failed(format!("there is no column named {}: {reason}.", quoted(name.as_bytes())))
}

fn several_columns(first: &Row, keys: &Keys) -> Failure {
    Failure::Usage(format!(
        "{} has {} columns; say which one with --column NAME or --column NUMBER. They are {}.",
        keys.input.name(),
        first.count(),
        names(first)
    ))
}

/// The fields of the first row, as the columns' names.
fn names(first: &Row) -> String {
    let mut names: Vec<String> = (0..first.count().min(NAMED_COLUMNS)).map(|index| shown_name(first, index)).collect();
    if first.count() > NAMED_COLUMNS {
        names.push(format!("{} more", first.count() - NAMED_COLUMNS));
    }
    listed(&names, "and")
}

/// A column's name, shortened and without control characters.
fn shown_name(first: &Row, index: usize) -> String {
    shown(text_of(first, index))
}

/// What stands in a row's field, without the space around it.
fn text_of(row: &Row, index: usize) -> &[u8] {
    row.field(index).unwrap_or_default().trim_ascii()
}
