//! Where bytes come from: a file, or standard input.

use std::fs::{self, File};
use std::io::{self, Read};
use std::path::{Path, PathBuf};

use crate::failure::{system_reason, Failure};
use crate::identity::{self, Identity};
use crate::progress::{Counted, Progress};
use crate::wording;

#[derive(Clone, Debug, PartialEq, Eq)]
pub enum Input {
    Standard,
    File(PathBuf),
}

/// An input that is open, and how many bytes it should have where that is known beforehand.
pub struct Opened<'a> {
    pub reader: Counted<'a, Box<dyn Read>>,
    pub length: Option<u64>,
}

impl Input {
    /// `-` is standard input, and so is its name in /dev: nothing is written beside that.
    pub fn of_operand(operand: &Path) -> Input {
        if operand == Path::new("-") || operand == Path::new("/dev/stdin") {
            Input::Standard
        } else {
            Input::File(operand.to_path_buf())
        }
    }

    /// What messages call it.
    pub fn name(&self) -> String {
        match self {
            Input::Standard => "standard input".to_string(),
            Input::File(path) => wording::path(path),
        }
    }

    /// Which regular file it is, if it is one.
    pub fn identity(&self) -> Option<Identity> {
        match self {
            Input::Standard => identity::of_stream(io::stdin()),
            Input::File(path) => identity::of_metadata(&fs::metadata(path).ok()?),
        }
    }

    /// Opens the input, as the phase "reading".
    pub fn open<'a>(&self, progress: &'a Progress) -> Result<Opened<'a>, Failure> {
        let (inner, length): (Box<dyn Read>, Option<u64>) = match self {
            Input::Standard => (Box::new(io::stdin().lock()), None),
            Input::File(path) => self.open_file(path)?,
        };
        progress.phase("reading", length);
        Ok(Opened { reader: Counted { inner, progress }, length })
    }

    fn open_file(&self, path: &Path) -> Result<(Box<dyn Read>, Option<u64>), Failure> {
        let metadata = fs::metadata(path).map_err(|error| self.cannot_be_opened(&error))?;
        if metadata.is_dir() {
            return Err(Failure::Failed(format!("{} is a folder; give a file.", self.name())));
        }
        let file = File::open(path).map_err(|error| self.cannot_be_opened(&error))?;
        // The system tells length 0 of files that it makes up while they are read, as those of /proc.
        let length = (metadata.is_file() && metadata.len() > 0).then_some(metadata.len());
        Ok((Box::new(file), length))
    }

    fn cannot_be_opened(&self, error: &io::Error) -> Failure {
        Failure::Failed(match error.kind() {
            io::ErrorKind::NotFound => format!("there is no file {}.", self.name()),
            _ => format!("{} cannot be opened: {}.", self.name(), system_reason(error)),
        })
    }

    pub fn cannot_be_read(&self, error: &io::Error) -> Failure {
        Failure::Failed(format!("{} cannot be read: {}.", self.name(), system_reason(error)))
    }
}
