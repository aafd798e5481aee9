//! Where bytes go: a file, or standard output.
//!
//! A file is written under another name in its folder, and takes its place only when every byte is on the disk. Whatever goes wrong
//! before that leaves the file that was there, which may be the input itself where that is forced.

use std::fs::{self, File, Metadata, OpenOptions};
use std::io::{self, BufWriter, Write};
use std::os::fd::{AsFd, OwnedFd};
use std::path::{Path, PathBuf};

use crate::failure::{system_reason, Failure};
use crate::identity;
use crate::input::Input;
use crate::temporary::Temporary;
use crate::wording;

const BUFFER_BYTES: usize = 1 << 18;

#[derive(Clone, Debug, PartialEq, Eq)]
pub enum Output {
    Standard,
    File {
        path: PathBuf,
        /// Whether a file that is there may be replaced.
        may_replace: bool,
    },
}

/// What an output file's path leads to.
enum Place {
    /// Something that is no regular file, as a device or a pipe: it is written as it is.
    Direct,
    /// The file that standard output or standard error is written to. It is written through that stream: a file that a shell appends
    /// our output to must not be replaced, and what the stream gets afterwards must stand behind.
    Stream(OwnedFd),
    New(PathBuf),
    /// A regular file, by its real path, so that a link to it stays.
    Existing(PathBuf, Metadata),
}

/// Prints a report.
pub fn print(report: &str) -> Result<(), Failure> {
    till_closed(Output::Standard.write(|writer| writer.write_all(report.as_bytes())))
}

/// Takes a closed pipe for an end: whoever reads a text, as `head` does, may have seen enough of it. What is cut without a trace, as a
/// chunk, must not end so.
pub fn till_closed(written: Result<(), Failure>) -> Result<(), Failure> {
    match written {
        Err(Failure::ClosedPipe(_)) => Ok(()),
        written => written,
    }
}

impl Output {
    /// `-` is standard output, and so is its name in /dev: a file that a shell appends our output to must not be replaced.
    pub fn of_operand(operand: &Path) -> Output {
        if operand == Path::new("-") || operand == Path::new("/dev/stdout") {
            Output::Standard
        } else {
            Output::File { path: operand.to_path_buf(), may_replace: true }
        }
    }

    /// What messages call it.
    pub fn name(&self) -> String {
        match self {
            Output::Standard => "standard output".to_string(),
            Output::File { path, .. } => wording::path(path),
        }
    }

    /// Refuses what cannot be written, so that it is said before the work and not after it. So is the input itself unless it is
    /// forced: a table is more than the one column that would take its place.
    pub fn check(&self, input: &Input, is_forced: bool) -> Result<(), Failure> {
        let Output::File { path, may_replace } = self else {
            return Ok(());
        };
        self.place(path, *may_replace)?;
        let identity = fs::metadata(path).ok().and_then(|metadata| identity::of_metadata(&metadata));
        if !is_forced && identity.is_some() && identity == input.identity() {
            return Err(Failure::Failed(format!(
                "{} is the input itself; give --force to replace it, or another output with -o OUT.",
                self.name()
            )));
        }
        Ok(())
    }

    /// Writes what `fill` writes, all of it or, to a file, nothing.
    pub fn write(&self, fill: impl FnOnce(&mut dyn Write) -> io::Result<()>) -> Result<(), Failure> {
        let Output::File { path, may_replace } = self else {
            // Not through `io::stdout`, which takes a standard output that is not open for writing as one that is.
            let file = io::stdout().as_fd().try_clone_to_owned().map(File::from);
            return file.and_then(|file| filled(&file, fill)).map_err(|error| self.cannot_be_written(&error));
        };
        match self.place(path, *may_replace)? {
            Place::Direct => {
                // At the end, since an open file of the caller's may have come by this name (/dev/fd/3).
                let file = OpenOptions::new().append(true).open(path);
                file.and_then(|file| filled(&file, fill)).map_err(|error| self.cannot_be_written(&error))
            }
            Place::Stream(stream) => filled(&File::from(stream), fill).map_err(|error| self.cannot_be_written(&error)),
            Place::New(place) => self.write_and_place(&place, None, fill),
            Place::Existing(place, metadata) => self.write_and_place(&place, Some(&metadata), fill),
        }
    }

    fn place(&self, path: &Path, may_replace: bool) -> Result<Place, Failure> {
        let refuse = |reason: &str| Err(Failure::Failed(format!("{} {reason}", self.name())));
        let metadata = match fs::metadata(path) {
            Ok(metadata) => metadata,
            Err(error) if error.kind() == io::ErrorKind::NotFound => {
                return match fs::symlink_metadata(path) {
                    Ok(_) => refuse("is a link that leads nowhere; remove it or choose another output."),
                    Err(_) if !folder_of(path).is_dir() => refuse("cannot be written: there is no such folder."),
                    Err(_) => Ok(Place::New(path.to_path_buf())),
                };
            }
            Err(error) => return Err(self.cannot_be_written(&error)),
        };
        if metadata.is_dir() {
            return refuse("is a folder; give the name of a file for the output.");
        }
        if !metadata.is_file() || path.starts_with("/dev/fd") || path.starts_with("/proc") {
            return Ok(Place::Direct);
        }
        if !may_replace {
            return Err(self.exists());
        }
        if let Some(stream) = stream_to(&metadata) {
            return Ok(Place::Stream(stream));
        }
        if metadata.permissions().readonly() {
            return refuse("is write-protected; choose another output.");
        }
        // A file that may not be written may not be replaced either.
        let writable = OpenOptions::new().append(true).open(path);
        let place = writable.and_then(|_| fs::canonicalize(path)).map_err(|error| self.cannot_be_written(&error))?;
        Ok(Place::Existing(place, metadata))
    }

    fn exists(&self) -> Failure {
        Failure::Failed(format!("{} exists; give --force to replace it, or another output with -o OUT.", self.name()))
    }

    fn cannot_be_written(&self, error: &io::Error) -> Failure {
        match error.kind() {
            io::ErrorKind::BrokenPipe => {
                Failure::ClosedPipe(format!("{} was closed before all was written.", self.name()))
            }
            _ => Failure::Failed(format!("{} cannot be written: {}.", self.name(), system_reason(error))),
        }
    }

    fn write_and_place(
        &self,
        place: &Path,
        existing: Option<&Metadata>,
        fill: impl FnOnce(&mut dyn Write) -> io::Result<()>,
    ) -> Result<(), Failure> {
        let folder = folder_of(place);
        let written = Temporary::create(folder, existing).and_then(|(temporary, file)| {
            filled(&file, fill)?;
            file.sync_all()?;
            Ok(temporary)
        });
        let temporary = written.map_err(|error| self.cannot_be_written(&error))?;
        let may_replace = existing.is_some() || matches!(self, Output::File { may_replace: true, .. });
        temporary.place(place, may_replace).map_err(|error| match error.kind() {
            io::ErrorKind::AlreadyExists => self.exists(),
            _ => self.cannot_be_written(&error),
        })?;
        // So that the new name survives a loss of power. Not every file system lets folders be synced, and the file is in place.
        let _ = File::open(folder).and_then(|folder| folder.sync_all());
        Ok(())
    }
}

fn filled(file: &File, fill: impl FnOnce(&mut dyn Write) -> io::Result<()>) -> io::Result<()> {
    let mut writer = BufWriter::with_capacity(BUFFER_BYTES, file);
    fill(&mut writer)?;
    writer.flush()
}

/// Standard output or standard error, where it is written to this regular file.
fn stream_to(metadata: &Metadata) -> Option<OwnedFd> {
    let wanted = identity::of_metadata(metadata)?;
    let (out, err) = (io::stdout(), io::stderr());
    let stream = [out.as_fd(), err.as_fd()].into_iter().find(|stream| identity::of_stream(stream) == Some(wanted))?;
    stream.try_clone_to_owned().ok()
}

fn folder_of(path: &Path) -> &Path {
    match path.parent() {
        Some(folder) if folder != Path::new("") => folder,
        _ => Path::new("."),
    }
}
