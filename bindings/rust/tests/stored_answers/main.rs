//! The crate against the stored answers of the original Rust (crates/replay/data; docs/ORACLE.md has the layout),
//! question by question: this crate must stand for basalt's.

mod chunks;
mod columns;
mod file;
mod leaves;

use file::Fields;
use warpboulder::Result;

/// A stored answer: number and offset, with 0 for accepted and none where the original's error holds no offset.
struct Answer {
    number: u32,
    offset: Option<u64>,
}

impl Answer {
    /// Number, whether the offset is compared, offset.
    fn read(fields: &mut Fields) -> Answer {
        let number = u32::from(fields.u8());
        let compared = fields.u8() == 1;
        let offset = fields.u64();
        Answer { number, offset: compared.then_some(offset) }
    }

    /// What was accepted, or `None` for what was refused as the original refuses it.
    #[track_caller]
    fn agreed<T: std::fmt::Debug>(&self, ours: Result<T>) -> Option<T> {
        match ours {
            Ok(value) => {
                assert_eq!(self.number, 0, "accepted {value:?}");
                Some(value)
            }
            Err(error) => {
                assert_eq!(error.number(), self.number);
                assert!(self.offset.map_or(true, |offset| offset == error.offset() as u64), "{error}");
                None
            }
        }
    }
}
