//! A key as decimal digits.

/// Why a text is no key.
#[derive(Debug, PartialEq, Eq)]
pub enum NotAKey {
    Empty,
    /// The byte at this place cannot stand there.
    NotANumber(usize),
    /// A whole number, but one that a signed 64-bit integer cannot hold.
    Beyond64Bits,
}

/// Reads an optional sign and at least one digit, and nothing else.
pub fn parse_key(text: &[u8]) -> Result<i64, NotAKey> {
    let (is_negative, sign_length) = match text.first() {
        None => return Err(NotAKey::Empty),
        Some(b'-') => (true, 1),
        Some(b'+') => (false, 1),
        Some(_) => (false, 0),
    };
    let digits = &text[sign_length..];
    if let Some(place) = digits.iter().position(|byte| !byte.is_ascii_digit()) {
        return Err(NotAKey::NotANumber(if place == 0 { 0 } else { sign_length + place }));
    }
    if digits.is_empty() {
        return Err(NotAKey::NotANumber(0));
    }
    digits.iter().try_fold(0i64, |value, byte| append_digit(value, *byte, is_negative)).ok_or(NotAKey::Beyond64Bits)
}

/// A negative number is built from negative digits, since the least key has no positive counterpart.
fn append_digit(value: i64, byte: u8, is_negative: bool) -> Option<i64> {
    let digit = i64::from(byte - b'0');
    let shifted = value.checked_mul(10)?;
    if is_negative {
        shifted.checked_sub(digit)
    } else {
        shifted.checked_add(digit)
    }
}

#[cfg(test)]
mod tests {
    use super::*;

    #[test]
    fn every_key_is_read() {
        for key in [0, 1, -1, 42, i64::MAX, i64::MIN, i64::MIN + 1] {
            assert_eq!(parse_key(key.to_string().as_bytes()), Ok(key));
        }
        assert_eq!(parse_key(b"+7"), Ok(7));
        assert_eq!(parse_key(b"-0"), Ok(0));
        assert_eq!(parse_key(b"000000000000000000000000012"), Ok(12));
    }

    #[test]
    fn one_beyond_either_end_is_beyond_64_bits() {
        assert_eq!(parse_key(b"9223372036854775808"), Err(NotAKey::Beyond64Bits));
        assert_eq!(parse_key(b"-9223372036854775809"), Err(NotAKey::Beyond64Bits));
        assert_eq!(parse_key(&[b'9'; 1000]), Err(NotAKey::Beyond64Bits));
    }

    #[test]
    fn what_is_no_number_is_refused_at_its_place() {
        assert_eq!(parse_key(b""), Err(NotAKey::Empty));
        for (text, place) in [
            ("x", 0),
            ("-", 0),
            ("-x", 0),
            ("--1", 0),
            ("12x4", 2),
            ("-12.5", 3),
            ("1 2", 1),
            ("99999999999999999999x", 20),
        ] {
            assert_eq!(parse_key(text.as_bytes()), Err(NotAKey::NotANumber(place)), "{text}");
        }
    }
}
