//! The cases that were compared, and the differences among them.

use crate::answer::Verdict;
use crate::calls::{Call, NAMES};

/// A difference, with what is needed to see it without the program.
pub struct Difference {
    /// How many keys, bytes or values the input has: of several differences the smallest is shown.
    pub size: usize,
    /// What is shown of it, each line with its heading.
    pub lines: Vec<(&'static str, String)>,
}

/// A case is one call of the library, of which the answer and every buffer were compared.
pub struct Tally {
    pub cases: [u64; NAMES.len()],
    pub differences: u64,
    pub smallest: Option<Difference>,
}

impl Tally {
    pub fn new() -> Tally {
        Tally { cases: [0; NAMES.len()], differences: 0, smallest: None }
    }

    pub fn total(&self) -> u64 {
        self.cases.iter().sum()
    }

    /// Counts a case. Where the verdict is bad, `describe` has the call, its input, and what was wanted and found.
    pub fn count(&mut self, call: Call, verdict: Verdict, size: usize, describe: impl FnOnce() -> [String; 4]) {
        self.cases[call as usize] += 1;
        let Some(fault) = verdict.0 else {
            return;
        };
        self.differ(size, || {
            let [arguments, input, wanted, found] = describe();
            vec![
                ("call", format!("{} {arguments}", call.name())),
                ("input", input),
                ("wanted", wanted),
                ("found", found),
                ("differs", fault),
            ]
        });
    }

    /// The original panicked, on an input that lies in the domain.
    pub fn panicked(&mut self, message: &str, size: usize, input: impl FnOnce() -> String) {
        self.differ(size, || vec![("input", input()), ("differs", format!("the Rust panicked: {message}"))]);
    }

    fn differ(&mut self, size: usize, lines: impl FnOnce() -> Vec<(&'static str, String)>) {
        self.differences += 1;
        if self.smallest.as_ref().is_none_or(|smallest| size < smallest.size) {
            self.smallest = Some(Difference { size, lines: lines() });
        }
    }

    /// Adds the tally of a later job.
    pub fn add(&mut self, other: Tally) {
        for (sum, cases) in self.cases.iter_mut().zip(other.cases) {
            *sum += cases;
        }
        self.differences += other.differences;
        let size = |tally: &Option<Difference>| tally.as_ref().map_or(usize::MAX, |difference| difference.size);
        if size(&other.smallest) < size(&self.smallest) {
            self.smallest = other.smallest;
        }
    }
}
