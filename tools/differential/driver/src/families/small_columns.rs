//! Every column over an alphabet, up to a length.

use crate::compare::column::column;
use crate::compare::writing::no_encodings;
use crate::job::{Job, Setting};

struct Alphabet {
    keys: &'static [i64],
    /// The greatest length in each setting.
    longest: [usize; 3],
}

const ALPHABETS: [Alphabet; 7] = [
    // the ends and the middle of the keys
    Alphabet { keys: &[0, 1, -1, i64::MIN, i64::MAX], longest: [2, 5, 8] },
    Alphabet { keys: &[0, 1], longest: [4, 10, 15] },
    Alphabet { keys: &[i64::MIN, i64::MIN + 1, i64::MAX - 1, i64::MAX], longest: [1, 4, 7] },
    // about one byte and two as a signed varint
    Alphabet { keys: &[-65, -64, 63, 64], longest: [1, 4, 7] },
    // about one byte and two as a gap or a width
    Alphabet { keys: &[0, 127, 128, 255, 256], longest: [1, 4, 6] },
    Alphabet { keys: &[-8193, -8192, 8191, 8192], longest: [1, 3, 6] },
    // gaps and deltas of four and five bytes
    Alphabet { keys: &[-1, 0, 1 << 31, 1 << 32, 1 << 62], longest: [1, 3, 6] },
];

/// So many columns are a job.
const STEP: usize = 250;

pub fn jobs(setting: Setting) -> usize {
    ALPHABETS.iter().map(|alphabet| alphabet.columns(setting)).sum::<usize>().div_ceil(STEP)
}

pub fn run(job: &mut Job) {
    for index in job.number * STEP..(job.number + 1) * STEP {
        let Some(keys) = nth(index, job.setting) else {
            return;
        };
        column(job, &keys);
        if index % 16 == 0 {
            no_encodings(job, &keys);
        }
    }
}

/// The columns of the first alphabet by length, then those of the second, and so on.
fn nth(mut index: usize, setting: Setting) -> Option<Vec<i64>> {
    for alphabet in &ALPHABETS {
        let columns = alphabet.columns(setting);
        if index < columns {
            return Some(alphabet.nth(index));
        }
        index -= columns;
    }
    None
}

impl Alphabet {
    fn columns(&self, setting: Setting) -> usize {
        (0..=setting.of(self.longest)).map(|length| self.keys.len().pow(length as u32)).sum()
    }

    fn nth(&self, mut index: usize) -> Vec<i64> {
        let keys = self.keys.len();
        let (mut length, mut of_length) = (0, 1);
        while index >= of_length {
            index -= of_length;
            of_length *= keys;
            length += 1;
        }
        let digits = (0..length).scan(index, |rest, _| {
            let digit = *rest % keys;
            *rest /= keys;
            Some(digit)
        });
        digits.map(|digit| self.keys[digit]).collect()
    }
}
