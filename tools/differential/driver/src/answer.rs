//! What a call should answer, and what is wrong with what it did.

use crate::lent::{Element, Lent};
use crate::refusal::Refusal;

/// Who says what a call should answer.
#[derive(Clone, Copy)]
pub enum By {
    /// The original's answer to the same question.
    Rust,
    /// Document 01, where it adds to the original.
    Document,
}

/// A number, 0 for accepted, and the count or the offset.
#[derive(Clone, Copy)]
pub struct Answer {
    pub number: u64,
    pub place: u64,
    pub by: By,
}

impl Answer {
    pub fn accepted(count: usize) -> Answer {
        Answer { number: 0, place: count as u64, by: By::Rust }
    }

    /// What the original refuses. Where its error holds no offset, document 01 has 0.
    pub fn refused(refusal: Refusal) -> Answer {
        Answer { number: refusal.number.into(), place: refusal.offset.unwrap_or(0), by: By::Rust }
    }

    /// What document 01 refuses and the original cannot be asked.
    pub fn added(number: u64, offset: usize) -> Answer {
        Answer { number, place: offset as u64, by: By::Document }
    }
}

/// What is wrong with a call, if anything is: the first thing that was looked at and is not as it should be.
#[derive(Default)]
pub struct Verdict(pub Option<String>);

impl Verdict {
    /// Of a call that returned a number and stored a count or an offset.
    pub fn of(returned: u64, place: &Lent<u64>, wanted: Answer) -> Verdict {
        let mut verdict = Verdict::default();
        verdict.same("the number", returned, wanted.number);
        verdict.left("the count or offset", place, &[wanted.place]);
        verdict
    }

    pub fn same(&mut self, what: &str, found: u64, wanted: u64) {
        if found != wanted && self.0.is_none() {
            self.0 = Some(format!("{what} is {found}, not {wanted}"));
        }
    }

    /// A buffer should have `front` at its front and be else as it was.
    pub fn left<T: Element>(&mut self, what: &str, lent: &Lent<T>, front: &[T]) {
        if self.0.is_none() {
            self.0 = lent.fault(front).map(|fault| format!("{what}: {fault}"));
        }
    }
}
