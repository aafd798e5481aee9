//! Columns with about 16,384 distinct keys, of which no more are kept.

use crate::compare::column::column;
use crate::compare::reading::chunk;
use crate::families::broken_chunks::damaged;
use crate::job::{Job, Setting};
use crate::numbers::Source;
use crate::reading::chunk_of;
use basalt_encoding::Encoding;

/// The last has codes of more than 15 bits, which our reading walks along three times.
const NUMBERS: [usize; 5] = [16_383, 16_384, 16_385, 16_386, 40_000];

/// The n-th of the keys that a column is made of.
type Key = fn(usize, &mut Source) -> i64;

const KEYS: [Key; 5] = [
    |nth, _| nth as i64,
    |nth, _| -(nth as i64),
    // far apart, and in no order
    |nth, _| (nth as u64).wrapping_mul(0x9e37_79b9_7f4a_7c15) as i64,
    // all in one slot of our table of keys that were met
    |nth, _| 0xffff_ffff * nth as i64,
    // rising, with gaps of one byte and two
    |nth, source| 200 * nth as i64 + source.below(200) as i64,
];

pub fn jobs(setting: Setting) -> usize {
    NUMBERS.len() * KEYS.len() * setting.of([0, 1, 8]) + setting.of([1, 0, 0])
}

/// Numbers of distinct keys by turns, and with each all the kinds of keys. The chunk that the original writes in Dictionary is read
/// with damages too.
pub fn run(job: &mut Job) {
    // alone in the small setting: one more than are kept
    let turn = if job.setting == Setting::Small { 2 } else { job.number };
    let distinct = NUMBERS[turn % NUMBERS.len()];
    let key = KEYS[turn / NUMBERS.len() % KEYS.len()];
    let keys: Vec<i64> = (0..distinct).map(|nth| key(nth, &mut job.source)).collect();
    let keys = repeated(&keys, &mut job.source);
    column(job, &keys);
    let written = chunk_of(&keys, Encoding::Dictionary);
    for _ in 0..4 {
        let damaged = damaged(written.clone(), &mut job.source);
        chunk(job, &damaged, &[0, Encoding::Dictionary.as_u8()]);
    }
}

/// All of the keys in their order, with some that were met again among them and behind them.
fn repeated(keys: &[i64], source: &mut Source) -> Vec<i64> {
    let often = [0, 1, 3][source.below(3) as usize];
    let mut column = Vec::new();
    for (met, &key) in keys.iter().enumerate() {
        column.push(key);
        if often > 0 && source.below(4) < often {
            column.push(keys[source.below(met as u64 + 1) as usize]);
        }
    }
    column.extend((0..source.below(40)).map(|_| keys[source.below(keys.len() as u64) as usize]));
    column
}
