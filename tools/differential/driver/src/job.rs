//! A part of a family: what one thread does without a pause, with its own seed, so that it has the same cases in every run.

use crate::desk::Desk;
use crate::numbers::Source;
use crate::tally::Tally;

/// How much is compared.
#[derive(Clone, Copy, PartialEq, Eq)]
pub enum Setting {
    /// As much as valgrind gets through in a minute.
    Small,
    /// As much as the gate has time for.
    Quick,
    Full,
}

impl Setting {
    /// The one of three that goes with the setting.
    pub fn of<T>(self, [small, quick, full]: [T; 3]) -> T {
        match self {
            Setting::Small => small,
            Setting::Quick => quick,
            Setting::Full => full,
        }
    }
}

pub struct Job<'a> {
    pub setting: Setting,
    /// Which of the family's jobs this is.
    pub number: usize,
    pub source: Source,
    pub desk: &'a mut Desk,
    pub tally: Tally,
}
