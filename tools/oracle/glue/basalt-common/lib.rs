//! Ties the original files together: modules and names, nothing else.

mod byte_size;
mod config;
mod error;

pub use byte_size::ByteSize;
pub use config::{CompressionLevel, Config};
pub use error::{BasaltError, IoResultExt, Region, Result};
