//! Why a command ended without doing what it was asked, and the exit status that says so.

use std::io;
use std::process::ExitCode;

/// What ends a command early. A sentence is whole: it begins with what it is about and ends with a full stop.
#[derive(Debug)]
pub enum Failure {
    /// The command line cannot be followed; the sentence says what would be right.
    Usage(String),
    /// The work was refused or went wrong; the sentence says why.
    Failed(String),
    /// The report that the command printed says that the chunk is refused, so nothing is left to say.
    Reported,
    /// Whoever read the output closed it before all was written; the sentence says so.
    ClosedPipe(String),
}

impl Failure {
    /// What to say on standard error, if anything.
    pub fn sentence(&self) -> Option<&str> {
        match self {
            Failure::Usage(sentence) | Failure::Failed(sentence) | Failure::ClosedPipe(sentence) => Some(sentence),
            Failure::Reported => None,
        }
    }

    pub fn exit_code(&self) -> ExitCode {
        match self {
            Failure::Usage(_) => ExitCode::from(2),
            Failure::Failed(_) | Failure::Reported | Failure::ClosedPipe(_) => ExitCode::from(1),
        }
    }
}

/// What the system says about an error, without its number: `No space left on device`.
pub fn system_reason(error: &io::Error) -> String {
    let text = error.to_string();
    match text.find(" (os error") {
        Some(end) => text[..end].to_string(),
        None => text,
    }
}
