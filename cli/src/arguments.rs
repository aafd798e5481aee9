//! The words of the command line, taken apart.

use std::ffi::{OsStr, OsString};
use std::os::unix::ffi::OsStrExt;
use std::path::{Path, PathBuf};

use crate::failure::Failure;
use crate::wording::{listed, quoted};

/// An option that a command may have.
#[derive(Debug, PartialEq, Eq)]
pub struct Flag {
    pub name: &'static str,
    /// One letter after one dash.
    pub short: Option<&'static str>,
    /// What it takes, in words; none for a switch.
    pub takes: Option<&'static str>,
}

pub const HELP: Flag = Flag { name: "--help", short: Some("-h"), takes: None };
pub const FROM: Flag = Flag { name: "--from", short: None, takes: Some("text, csv or binary") };
pub const COLUMN: Flag = Flag { name: "--column", short: None, takes: Some("the name or the number of a CSV column") };
pub const HEADER: Flag = Flag { name: "--header", short: None, takes: Some("yes or no") };
pub const LEVEL: Flag = Flag { name: "--level", short: None, takes: Some("a number from 0 to 9") };
pub const ENCODING: Flag = Flag { name: "--encoding", short: None, takes: Some("the name of an encoding") };
pub const OUTPUT: Flag = Flag { name: "--output", short: Some("-o"), takes: Some("a file, or - for standard output") };
pub const TO: Flag = Flag { name: "--to", short: None, takes: Some("text or binary") };
pub const STRICT: Flag = Flag { name: "--strict", short: None, takes: None };
pub const FORCE: Flag = Flag { name: "--force", short: None, takes: None };

/// What a command was given: at most one operand, and each option at most once.
#[derive(Debug, Default)]
pub struct Arguments {
    operand: Option<PathBuf>,
    /// Switches have an empty value.
    given: Vec<(&'static str, OsString)>,
}

impl Arguments {
    /// Takes the words after a command's name apart.
    pub fn parse(command: &str, flags: &[&'static Flag], words: &[OsString]) -> Result<Arguments, Failure> {
        let mut arguments = Arguments::default();
        let mut words = words.iter();
        let mut options_are_over = false;
        while let Some(word) = words.next() {
            if !options_are_over && word == "--" {
                options_are_over = true;
            } else if options_are_over || word == "-" || !word.as_bytes().starts_with(b"-") {
                arguments.take_operand(command, word)?;
            } else {
                let (flag, attached) = find(command, flags, word)?;
                let value = match (flag.takes, attached) {
                    (None, None) => OsString::new(),
                    (None, Some(_)) => return Err(usage(format!("{} takes no value.", flag.name))),
                    (Some(_), Some(value)) => value.to_os_string(),
                    (Some(takes), None) => words.next().cloned().ok_or_else(|| needs_value(flag.name, takes))?,
                };
                arguments.take_option(flag.name, value)?;
            }
        }
        Ok(arguments)
    }

    pub fn operand(&self) -> Option<&Path> {
        self.operand.as_deref()
    }

    pub fn has(&self, flag: &Flag) -> bool {
        self.value(flag).is_some()
    }

    pub fn value(&self, flag: &Flag) -> Option<&OsStr> {
        self.given.iter().find(|(name, _)| *name == flag.name).map(|(_, value)| value.as_os_str())
    }

    fn take_operand(&mut self, command: &str, word: &OsStr) -> Result<(), Failure> {
        if word.is_empty() {
            return Err(usage(format!("{command} was given an empty file name.")));
        }
        if let Some(first) = &self.operand {
            let (first, second) = (quoted(first.as_os_str().as_bytes()), quoted(word.as_bytes()));
            return Err(usage(format!("{command} takes one file, but {first} and {second} were given.")));
        }
        self.operand = Some(PathBuf::from(word));
        Ok(())
    }

    fn take_option(&mut self, name: &'static str, value: OsString) -> Result<(), Failure> {
        if self.given.iter().any(|(given, _)| *given == name) {
            return Err(usage(format!("{name} is given twice.")));
        }
        self.given.push((name, value));
        Ok(())
    }
}

/// The flag that a word names, and the value that is attached to it: `--level=6`, `-oOUT`.
fn find<'a>(
    command: &str,
    flags: &[&'static Flag],
    word: &'a OsStr,
) -> Result<(&'static Flag, Option<&'a OsStr>), Failure> {
    let bytes = word.as_bytes();
    for flag in flags {
        if let Some(rest) = bytes.strip_prefix(flag.name.as_bytes()) {
            match rest {
                [] => return Ok((flag, None)),
                [b'=', value @ ..] => return Ok((flag, Some(OsStr::from_bytes(value)))),
                _ => {}
            }
        }
        if let Some(rest) = flag.short.and_then(|short| bytes.strip_prefix(short.as_bytes())) {
            return Ok((flag, (!rest.is_empty()).then_some(OsStr::from_bytes(rest))));
        }
    }
    let names: Vec<&str> = flags.iter().map(|flag| flag.short.unwrap_or(flag.name)).collect();
    Err(usage(format!("{command} has no option {}; its options are {}.", quoted(bytes), listed(&names, "and"))))
}

fn needs_value(name: &str, takes: &str) -> Failure {
    usage(format!("{name} needs a value: {takes}."))
}

pub fn usage(sentence: String) -> Failure {
    Failure::Usage(sentence)
}

#[cfg(test)]
mod tests {
    use super::*;

    fn parse(words: &[&str]) -> Result<Arguments, String> {
        let words: Vec<OsString> = words.iter().map(OsString::from).collect();
        Arguments::parse("pack", &[&LEVEL, &OUTPUT, &FORCE], &words)
            .map_err(|failure| failure.sentence().unwrap_or_default().to_string())
    }

    #[test]
    fn options_stand_before_or_after_the_operand() {
        for words in [["a", "--level", "3"], ["--level", "3", "a"], ["--level=3", "--", "a"]] {
            let arguments = parse(&words).unwrap();
            assert_eq!(arguments.operand(), Some(Path::new("a")));
            assert_eq!(arguments.value(&LEVEL), Some(OsStr::new("3")));
            assert!(!arguments.has(&FORCE));
        }
    }

    #[test]
    fn a_dash_alone_is_an_operand_and_a_value() {
        let arguments = parse(&["-", "-o", "-", "--force"]).unwrap();
        assert_eq!(arguments.operand(), Some(Path::new("-")));
        assert_eq!(arguments.value(&OUTPUT), Some(OsStr::new("-")));
        assert!(arguments.has(&FORCE));
        assert_eq!(parse(&["-oOUT"]).unwrap().value(&OUTPUT), Some(OsStr::new("OUT")));
        assert_eq!(parse(&["--", "--level"]).unwrap().operand(), Some(Path::new("--level")));
    }

    #[test]
    fn what_is_wrong_is_said() {
        for (words, part) in [
            (&["--levle", "3"][..], "no option \"--levle\"; its options are --level, -o and --force"),
            (&["--level"], "--level needs a value: a number from 0 to 9"),
            (&["--level=1", "--level=2"], "--level is given twice"),
            (&["--force=yes"], "--force takes no value"),
            (&["a", "b"], "takes one file, but \"a\" and \"b\" were given"),
            (&[""], "empty file name"),
        ] {
            let sentence = parse(words).unwrap_err();
            assert!(sentence.contains(part), "{sentence}");
        }
    }
}
