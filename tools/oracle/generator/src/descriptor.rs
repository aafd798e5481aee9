//! Long columns as a formula, so that a file holds some numbers in place of their keys.

use crate::file::Record;
use crate::numbers::next_state;

/// All sums and products are modulo 2^64, all divisions unsigned, and a result is read as a signed key:
///
/// key i = `other`, where i mod `rare` = `rare` - 1, else
/// `start` + `step` * ((i / `every` * `factor`) mod `wrap`) + ((state i >> `shift`) mod `modulus`),
/// where state 0 follows `seed` and each state follows the one before it (`next_state`).
#[derive(Clone, Copy)]
pub struct Descriptor {
    pub count: usize,
    pub start: u64,
    pub step: u64,
    pub every: u64,
    pub factor: u64,
    pub wrap: u64,
    pub seed: u64,
    pub shift: u64,
    pub modulus: u64,
    pub rare: u64,
    pub other: u64,
}

/// Zeros; every other descriptor says in which fields it differs.
const ZEROS: Descriptor = Descriptor {
    count: 0,
    start: 0,
    step: 0,
    every: 1,
    factor: 1,
    wrap: u64::MAX,
    seed: 0,
    shift: 0,
    modulus: 1,
    rare: u64::MAX,
    other: 0,
};

/// Noise of all 64 bits but for one number.
const FULL: u64 = u64::MAX;

const LEAST: u64 = 1 << 63;
const GREATEST: u64 = LEAST - 1;

impl Descriptor {
    pub fn column(&self) -> Vec<i64> {
        let mut state = self.seed;
        (0..self.count as u64)
            .map(|i| {
                state = next_state(state);
                self.key(i, state) as i64
            })
            .collect()
    }

    fn key(&self, i: u64, state: u64) -> u64 {
        if i % self.rare == self.rare - 1 {
            return self.other;
        }
        let place = (i / self.every).wrapping_mul(self.factor) % self.wrap;
        let noise = (state >> self.shift) % self.modulus;
        self.start.wrapping_add(self.step.wrapping_mul(place)).wrapping_add(noise)
    }

    pub fn write(&self, record: &mut Record) {
        record.words(&[
            self.start,
            self.step,
            self.every,
            self.factor,
            self.wrap,
            self.seed,
            self.shift,
            self.modulus,
            self.rare,
            self.other,
        ]);
    }
}

pub fn all() -> Vec<Descriptor> {
    let mut all = middle();
    all.extend(large());
    all.extend(gains());
    all
}

/// The shapes of columns, of `count` keys each.
fn shapes(count: usize) -> [Descriptor; 14] {
    let zeros = Descriptor { count, ..ZEROS };
    let noisy = Descriptor { seed: count as u64, shift: 33, ..zeros };
    [
        // constant
        Descriptor { start: 1_234_567, ..zeros },
        // sorted ids, and the same falling below zero
        Descriptor { start: 1_000_000, step: 2, ..zeros },
        Descriptor { start: 500, step: 7u64.wrapping_neg(), ..zeros },
        // 0 to 199, again and again, in order and scattered
        Descriptor { step: 1, wrap: 200, ..zeros },
        Descriptor { step: 1, wrap: 200, factor: 77, ..zeros },
        // any key
        Descriptor { shift: 0, modulus: FULL, ..noisy },
        // the extremes by turns
        Descriptor { start: LEAST, rare: 2, other: GREATEST, ..zeros },
        // long runs
        Descriptor { start: 50u64.wrapping_neg(), step: 1_000, every: 37, ..zeros },
        // few distinct values, far apart
        Descriptor { start: 99, step: 0x1234_5678_9abc_def1, factor: 3, wrap: 5, ..zeros },
        // times with jitter
        Descriptor { start: 1_700_000_000_000_000, step: 1_000_000, modulus: 5_000, ..noisy },
        // small, but for a huge one here and there
        Descriptor { modulus: 50, rare: 61, other: GREATEST - 3, ..noisy },
        // below zero
        Descriptor { start: 500u64.wrapping_neg(), modulus: 400, ..noisy },
        // steps that pass the greatest key
        Descriptor { start: GREATEST - 10, step: (1 << 60) + 1, ..zeros },
        // zeros, and a jump at the end
        Descriptor { rare: count as u64, other: 1_000, ..zeros },
    ]
}

/// Counts about one and two blocks of deltas, each with half of the shapes, and some longer ones.
fn middle() -> Vec<Descriptor> {
    let mut all = Vec::new();
    let counts = (63..=65).chain(127..=131).chain(255..=258);
    for (turn, count) in counts.enumerate() {
        all.extend(shapes(count).into_iter().skip(turn % 2).step_by(2));
    }
    for (turn, count) in [300, 385, 513, 1_000, 4_095, 4_096].into_iter().enumerate() {
        all.extend(shapes(count).into_iter().skip(turn % 5).step_by(5));
    }
    all
}

/// About 16,384 distinct values, and columns of up to 20,000 keys of every shape.
fn large() -> Vec<Descriptor> {
    let mut all = Vec::new();
    for distinct in [16_383, 16_384, 16_385, 16_390] {
        let count = distinct as usize;
        all.push(Descriptor { count, start: 70_000, step: 3, ..ZEROS });
        all.push(Descriptor {
            count: 20_000,
            start: LEAST,
            step: 0x12_3457,
            factor: 7_919, // has no divisor in common with these numbers, so all places come
            wrap: distinct,
            ..ZEROS
        });
    }
    // 16,384 distinct values falling; repeated; and one more as the last key
    let block = Descriptor { count: 16_384, step: u64::MAX, ..ZEROS };
    let again = Descriptor { count: 16_400, wrap: 16_384, ..block };
    all.extend([block, again, Descriptor { rare: 16_400, other: 5, ..again }]);
    all.extend(shapes(20_000).into_iter().step_by(2));
    all.extend(shapes(16_513).into_iter().skip(1).step_by(4)); // 129 whole blocks of deltas
    all
}

/// Columns of plain length 1,060 whose least length is just enough gain, and one byte too long, in turn for the
/// levels from 1, from 4 and from 7. Dictionary is the shortest: the number of entries and the length of the first
/// one set its length.
pub fn gains() -> [Descriptor; 6] {
    let column =
        |start, entries| Descriptor { count: 132, start, step: (1 << 56) + 1, factor: 50, wrap: entries, ..ZEROS };
    [
        column(1 << 38, 81),
        column(1 << 45, 81),
        column(10_000, 99),
        column(2_000_000, 99),
        column((1u64 << 56).wrapping_neg(), 103),
        column((1u64 << 62).wrapping_neg() - 5, 103),
    ]
}
