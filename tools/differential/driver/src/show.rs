//! Inputs and answers as text.

use crate::answer::{Answer, By};
use std::fmt::Display;

/// Longer lists are shown by so many elements at each end: the seed makes them again.
const WHOLE: usize = 4096;
const ENDS: usize = 64;

pub fn hex(bytes: &[u8]) -> String {
    list(bytes, |byte| format!("{byte:02x}"))
}

pub fn keys<T: Display>(keys: &[T]) -> String {
    list(keys, |key| key.to_string())
}

fn list<T>(all: &[T], text: impl Fn(&T) -> String) -> String {
    let join = |some: &[T]| some.iter().map(&text).collect::<Vec<_>>().join(" ");
    if all.is_empty() {
        return "(none)".to_string();
    }
    if all.len() <= WHOLE {
        return join(all);
    }
    format!("{} ... {} ({} in all)", join(&all[..ENDS]), join(&all[all.len() - ENDS..]), all.len())
}

pub fn answer(number: u64, place: u64) -> String {
    match number {
        0 => format!("accepted, {place}"),
        _ => format!("refused with {number}, at {place}"),
    }
}

pub fn wanted(answer: Answer) -> String {
    let by = match answer.by {
        By::Rust => "the Rust",
        By::Document => "document 01",
    };
    format!("{} ({by})", self::answer(answer.number, answer.place))
}

/// A number with commas.
pub fn number(number: u64) -> String {
    match number / 1000 {
        0 => number.to_string(),
        thousands => format!("{},{:03}", self::number(thousands), number % 1000),
    }
}
