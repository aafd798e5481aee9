//! A file that is written before it takes the place of another.

use std::fs::{self, File, Metadata, OpenOptions, Permissions};
use std::io;
use std::os::unix::fs::{fchown, MetadataExt, OpenOptionsExt, PermissionsExt};
use std::path::{Path, PathBuf};
use std::process;

/// So many names are tried. Only a process of our number that ended early, or one on another machine, can have left the first.
const ATTEMPTS: usize = 100;

/// A file whose name is removed unless it has become that of the output.
pub struct Temporary {
    path: PathBuf,
    is_renamed: bool,
}

impl Temporary {
    /// A new file in a folder, with the permissions of the one that it will replace.
    pub fn create(folder: &Path, existing: Option<&Metadata>) -> io::Result<(Temporary, File)> {
        // Nobody else may read what will stand in a file that nobody else can read.
        let mode = if existing.is_some() { 0o600 } else { 0o666 };
        let mut last = io::Error::from(io::ErrorKind::AlreadyExists);
        for attempt in 0..ATTEMPTS {
            let path = folder.join(format!(".warpboulder-{}-{attempt}.tmp", process::id()));
            match OpenOptions::new().write(true).create_new(true).mode(mode).open(&path) {
                Ok(file) => {
                    let temporary = Temporary { path, is_renamed: false };
                    if let Some(existing) = existing {
                        take_over_permissions(&file, existing)?;
                    }
                    return Ok((temporary, file));
                }
                Err(error) if error.kind() == io::ErrorKind::AlreadyExists => last = error,
                Err(error) => return Err(error),
            }
        }
        Err(last)
    }

    /// Gives the file its place.
    pub fn place(mut self, place: &Path, may_replace: bool) -> io::Result<()> {
        if !may_replace {
            // A second name is refused where a file has come to be there meanwhile, which a renaming would replace.
            match fs::hard_link(&self.path, place) {
                // A file system on which files have one name.
                Err(error) if error.kind() != io::ErrorKind::AlreadyExists && !place.exists() => {}
                linked => return linked,
            }
        }
        fs::rename(&self.path, place)?;
        self.is_renamed = true;
        Ok(())
    }
}

impl Drop for Temporary {
    fn drop(&mut self) {
        if !self.is_renamed {
            // Where this cannot be done, either the output could not be written, which is told, or it is in place and only a second
            // name stays.
            let _ = fs::remove_file(&self.path);
        }
    }
}

/// The owner and the group as far as we may give files away, then the mode, which a change of owner may restrict. Where the file stays
/// in our group, the mode must not open it to that group, nor to those whom the other group's rights kept out.
fn take_over_permissions(file: &File, existing: &Metadata) -> io::Result<()> {
    let (owner, group) = (Some(existing.uid()), Some(existing.gid()));
    let mode = match fchown(file, owner, group).or_else(|_| fchown(file, None, group)) {
        Ok(()) => existing.mode(),
        Err(_) => existing.mode() & 0o700,
    };
    file.set_permissions(Permissions::from_mode(mode))
}
