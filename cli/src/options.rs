//! What the options of a command mean.

use std::ffi::OsStr;
use std::io::{self, IsTerminal};
use std::os::unix::ffi::OsStrExt;
use std::path::Path;

use warpboulder::{CompressionLevel, Encoding};

use crate::arguments::{usage, Arguments, COLUMN, ENCODING, FROM, HEADER, LEVEL, OUTPUT};
use crate::failure::Failure;
use crate::input::Input;
use crate::keys::{Format, Selector, Source};
use crate::output::Output;
use crate::wording::{listed, quoted};

/// The chunk that a command reads.
pub fn chunk_input(command: &str, arguments: &Arguments) -> Result<Input, Failure> {
    operand(command, arguments, "a CHUNK").map(Input::of_operand)
}

/// The keys that a command reads: `--from` says how they are written; else `--column` or `--header` says that it is CSV; else the
/// ending tells.
pub fn key_source(command: &str, arguments: &Arguments) -> Result<Source, Failure> {
    let path = operand(command, arguments, "a FILE of keys")?;
    let format = arguments.value(&FROM).map(format_of_name).transpose()?;
    let selector = arguments.value(&COLUMN).map(selector_of_word).transpose()?;
    let has_header = arguments.value(&HEADER).map(yes_or_no).transpose()?;
    let of_csv = [&COLUMN, &HEADER].into_iter().find(|flag| arguments.has(flag));
    if let (Some(flag), Some(Format::Text | Format::Binary)) = (of_csv, format) {
        return Err(usage(format!("{} is for CSV files; leave it out or give --from csv.", flag.name)));
    }
    if matches!((&selector, has_header), (Some(Selector::Name(_)), Some(false))) {
        return Err(usage("without a header no column has a name; give --column NUMBER, or --header yes.".to_string()));
    }
    let of_ending = || if of_csv.is_some() { Format::Csv } else { Format::of_ending(path) };
    Ok(Source { input: Input::of_operand(path), format: format.unwrap_or_else(of_ending), selector, has_header })
}

fn yes_or_no(word: &OsStr) -> Result<bool, Failure> {
    match word.to_str() {
        Some("yes") => Ok(true),
        Some("no") => Ok(false),
        _ => Err(usage(format!("--header takes yes or no, not {}.", quoted(word.as_bytes())))),
    }
}

fn operand<'a>(command: &str, arguments: &'a Arguments, what: &str) -> Result<&'a Path, Failure> {
    let missing =
        || usage(format!("{command} needs {what} ('-' is standard input); 'warpboulder {command} --help' tells more."));
    arguments.operand().ok_or_else(missing)
}

fn format_of_name(word: &OsStr) -> Result<Format, Failure> {
    match word.to_str() {
        Some("text") => Ok(Format::Text),
        Some("csv") => Ok(Format::Csv),
        Some("binary") => Ok(Format::Binary),
        _ => Err(usage(format!("--from takes text, csv or binary, not {}.", quoted(word.as_bytes())))),
    }
}

/// Digits are a column's number, anything else its name.
fn selector_of_word(word: &OsStr) -> Result<Selector, Failure> {
    let text = word.to_string_lossy();
    if text.is_empty() || !text.bytes().all(|byte| byte.is_ascii_digit()) {
        return Ok(Selector::Name(text.into_owned()));
    }
    match text.parse() {
        Ok(number) if number > 0 => Ok(Selector::Number(number)),
        _ => Err(usage(format!("--column counts columns from 1, so there is no column {text}."))),
    }
}

pub fn level(arguments: &Arguments) -> Result<CompressionLevel, Failure> {
    let Some(word) = arguments.value(&LEVEL) else {
        return Ok(CompressionLevel::default());
    };
    let number = word.to_str().and_then(|text| text.parse().ok());
    let refusal = || usage(format!("--level takes a number from 0 to 9, not {}.", quoted(word.as_bytes())));
    number.and_then(CompressionLevel::new).ok_or_else(refusal)
}

pub fn encoding(arguments: &Arguments) -> Result<Option<Encoding>, Failure> {
    let Some(word) = arguments.value(&ENCODING) else {
        return Ok(None);
    };
    let wanted = plain_letters(&word.to_string_lossy());
    let is_wanted = |encoding: &Encoding| {
        [encoding.name().to_string(), encoding.to_string(), encoding.as_u8().to_string()]
            .iter()
            .any(|name| plain_letters(name) == wanted)
    };
    let names = Encoding::ALL.map(Encoding::name);
    let refusal = || usage(format!("--encoding takes {}, not {}.", listed(&names, "or"), quoted(word.as_bytes())));
    Encoding::ALL.into_iter().find(is_wanted).map(Some).ok_or_else(refusal)
}

/// A name without what people write in different ways: `frame-of-reference` is FrameOfReference.
fn plain_letters(name: &str) -> String {
    name.chars().filter(|character| !['-', '_', ' '].contains(character)).flat_map(char::to_lowercase).collect()
}

/// The output that `-o` names, if it is given.
pub fn output(arguments: &Arguments) -> Result<Option<Output>, Failure> {
    match arguments.value(&OUTPUT) {
        Some(word) if word.is_empty() => Err(usage("-o was given an empty file name.".to_string())),
        word => Ok(word.map(|word| Output::of_operand(Path::new(word)))),
    }
}

/// Standard output for bytes that are no text: a terminal gets them only where `-o -` asks for it.
pub fn standard_output_for_bytes(what: &str) -> Result<Output, Failure> {
    if io::stdout().is_terminal() {
        return Err(usage(format!(
            "{what} is not text, and standard output is a terminal; name a file with -o OUT, or give -o - to write it there."
        )));
    }
    Ok(Output::Standard)
}

#[cfg(test)]
mod tests {
    use super::*;
    use std::ffi::OsString;

    fn arguments(words: &[&str]) -> Arguments {
        let words: Vec<OsString> = words.iter().map(OsString::from).collect();
        Arguments::parse("pack", &[&LEVEL, &ENCODING, &FROM, &COLUMN, &HEADER, &OUTPUT], &words).unwrap()
    }

    #[test]
    fn levels_are_0_to_9_and_6_by_default() {
        assert_eq!(level(&arguments(&[])).unwrap(), CompressionLevel::BALANCED);
        assert_eq!(level(&arguments(&["--level=0"])).unwrap(), CompressionLevel::NONE);
        assert_eq!(level(&arguments(&["--level=9"])).unwrap(), CompressionLevel::MAX);
        for wrong in ["10", "-1", "six", "", "256", "6.0"] {
            assert!(level(&arguments(&["--level", wrong])).is_err(), "{wrong}");
        }
    }

    #[test]
    fn encodings_have_several_names() {
        for (word, wanted) in [
            ("Plain", Encoding::Plain),
            ("bitpacked", Encoding::BitPacked),
            ("frame-of-reference", Encoding::FrameOfReference),
            ("for", Encoding::FrameOfReference),
            ("RLE", Encoding::RunLength),
            ("run_length", Encoding::RunLength),
            ("6", Encoding::Dictionary),
            ("delta", Encoding::DeltaBinaryPacked),
        ] {
            assert_eq!(encoding(&arguments(&["--encoding", word])).unwrap(), Some(wanted), "{word}");
        }
        assert_eq!(encoding(&arguments(&[])).unwrap(), None);
        for wrong in ["", "8", "gzip", "0"] {
            assert!(encoding(&arguments(&["--encoding", wrong])).is_err(), "{wrong}");
        }
    }

    #[test]
    fn the_format_is_told_or_guessed() {
        for (words, format) in [
            (&["a.csv"][..], Format::Csv),
            (&["a.csv", "--from", "text"], Format::Text),
            (&["-", "--column", "depot"], Format::Csv),
            (&["-", "--header", "no"], Format::Csv),
            (&["a.bin"], Format::Binary),
            (&["-"], Format::Text),
        ] {
            assert_eq!(key_source("plan", &arguments(words)).unwrap().format, format);
        }
        assert!(key_source("plan", &arguments(&["a", "--column=1", "--from=binary"])).is_err());
        assert!(key_source("plan", &arguments(&["a", "--header=no", "--from=text"])).is_err());
        assert!(key_source("plan", &arguments(&[])).is_err());
    }

    #[test]
    fn digits_number_a_column_from_1() {
        let selector = |word| key_source("plan", &arguments(&["a", "--column", word])).map(|source| source.selector);
        assert_eq!(selector("3").unwrap(), Some(Selector::Number(3)));
        assert_eq!(selector("3a").unwrap(), Some(Selector::Name("3a".to_string())));
        assert!(selector("0").is_err());
        assert!(selector("99999999999999999999999").is_err());
    }
}
