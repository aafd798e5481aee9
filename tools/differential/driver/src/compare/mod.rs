//! The comparisons: each asks the original, then makes our calls with buffers of several lengths.

pub mod analysis;
pub mod column;
pub mod number;
pub mod packing;
pub mod reading;
pub mod varint;
pub mod writing;
