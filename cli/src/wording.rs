//! Numbers and texts as people read them.

use std::fmt::Display;
use std::path::Path;

/// So many characters of a text are shown in a message.
const SHOWN: usize = 40;

/// A whole number with a comma between groups of three digits: `-1,234,567`.
pub fn grouped(number: impl Display) -> String {
    let text = number.to_string();
    let (sign, digits) = match text.strip_prefix('-') {
        Some(digits) => ("-", digits),
        None => ("", text.as_str()),
    };
    let mut out = String::from(sign);
    for (place, digit) in digits.chars().enumerate() {
        if place > 0 && (digits.len() - place).is_multiple_of(3) {
            out.push(',');
        }
        out.push(digit);
    }
    out
}

/// A count with its noun: `1 key`, `3,000 keys`.
pub fn counted(count: usize, one: &str, many: &str) -> String {
    format!("{} {}", grouped(count), if count == 1 { one } else { many })
}

/// A fraction in percent, with one digit after the point, or more where the first would say nothing: `6.3%`, `0.020%`, `<0.001%`.
pub fn percent(fraction: f64) -> String {
    let value = fraction * 100.0;
    if value > 0.0 && value < 0.0005 {
        "<0.001%".to_string()
    } else if value != 0.0 && value.abs() < 0.1 {
        format!("{value:.3}%")
    } else {
        format!("{value:.1}%")
    }
}

/// One number by another. Nothing of nothing is all of it.
pub fn share(part: usize, whole: usize) -> f64 {
    if whole == 0 {
        1.0
    } else {
        part as f64 / whole as f64
    }
}

/// Names in a row: `a, b and c`.
pub fn listed<T: AsRef<str>>(names: &[T], last_word: &str) -> String {
    match names {
        [] => String::new(),
        [only] => only.as_ref().to_string(),
        [front @ .., last] => {
            let front: Vec<&str> = front.iter().map(AsRef::as_ref).collect();
            format!("{} {last_word} {}", front.join(", "), last.as_ref())
        }
    }
}

/// What a file or a command line holds, in quotation marks.
pub fn quoted(bytes: &[u8]) -> String {
    format!("\"{}\"", shown(bytes))
}

/// The same without them. A terminal shows it and does nothing else: what is no printable character is written as an escape, and
/// what is long is cut.
pub fn shown(bytes: &[u8]) -> String {
    let text = String::from_utf8_lossy(&bytes[..bytes.len().min(8 * SHOWN)]);
    let mut shown: String = text.chars().take(SHOWN).flat_map(escaped).collect();
    if text.chars().count() > SHOWN {
        shown.push_str("...");
    }
    shown
}

/// A path as it is shown: control characters in a name do not reach the terminal.
pub fn path(path: &Path) -> String {
    path.to_string_lossy().chars().flat_map(escaped).collect()
}

fn escaped(character: char) -> Vec<char> {
    if character.is_control() {
        character.escape_default().collect()
    } else {
        vec![character]
    }
}

#[cfg(test)]
mod tests {
    use super::*;

    #[test]
    fn digits_stand_in_groups_of_three() {
        for (number, text) in [(0, "0"), (999, "999"), (1000, "1,000"), (-999, "-999"), (-123456, "-123,456")] {
            assert_eq!(grouped(number), text);
        }
        assert_eq!(grouped(i64::MIN), "-9,223,372,036,854,775,808");
        assert_eq!(grouped(u64::MAX), "18,446,744,073,709,551,615");
    }

    #[test]
    fn a_count_has_the_form_of_its_noun() {
        assert_eq!(counted(1, "key", "keys"), "1 key");
        assert_eq!(counted(0, "key", "keys"), "0 keys");
        assert_eq!(counted(16_777_216, "key", "keys"), "16,777,216 keys");
    }

    #[test]
    fn small_percentages_are_not_shown_as_zero() {
        assert_eq!(percent(0.0625), "6.2%");
        assert_eq!(percent(0.0), "0.0%");
        assert_eq!(percent(0.00012), "0.012%");
        assert_eq!(percent(0.000005), "0.001%");
        assert_eq!(percent(0.0000049), "<0.001%");
        assert_eq!(percent(-0.25), "-25.0%");
    }

    #[test]
    fn names_are_listed_with_a_last_word() {
        assert_eq!(listed(&["a"], "and"), "a");
        assert_eq!(listed(&["a", "b", "c"], "or"), "a, b or c");
    }

    #[test]
    fn what_a_file_holds_cannot_steer_the_terminal() {
        assert_eq!(quoted(b"12\x1b[2Jx"), "\"12\\u{1b}[2Jx\"");
        assert_eq!(quoted(&[b'x'; 100]), format!("\"{}...\"", "x".repeat(SHOWN)));
        assert_eq!(path(Path::new("a\nb")), "a\\nb");
    }
}
