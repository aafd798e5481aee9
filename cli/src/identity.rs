//! Which file a path or an open stream leads to, whatever its name.

use std::fs::{File, Metadata};
use std::os::fd::AsFd;
use std::os::unix::fs::MetadataExt;

/// The device and the number of a regular file there: two names of one file have the same.
#[derive(Clone, Copy, Debug, PartialEq, Eq)]
pub struct Identity(u64, u64);

/// None for what is no regular file, as a terminal or a pipe: it holds nothing that could be lost.
pub fn of_metadata(metadata: &Metadata) -> Option<Identity> {
    metadata.is_file().then(|| Identity(metadata.dev(), metadata.ino()))
}

/// None also for a stream that is closed.
pub fn of_stream(stream: impl AsFd) -> Option<Identity> {
    let file = stream.as_fd().try_clone_to_owned().map(File::from);
    of_metadata(&file.and_then(|file| file.metadata()).ok()?)
}
