//! What several of the tests use.

use warpboulder::{Error, Result};

/// Number and offset of an answer that must be a refusal.
#[track_caller]
pub fn refused<T: std::fmt::Debug>(answer: Result<T>) -> (u32, usize) {
    let error: Error = answer.expect_err("this must be refused");
    (error.number(), error.offset())
}
