//! Packing and unpacking: a job for each width, with counts about multiples of 8 and of the blocks of 128.

use crate::compare::packing::{length, pack, unpack};
use crate::job::{Job, Setting};
use crate::numbers::Source;
use basalt_encoding::bitpack::packed_len;

/// Widths above 64, which are refused.
const NO_WIDTHS: [u32; 6] = [65, 66, 128, 255, 256, u32::MAX];
const WIDTHS: usize = 65 + NO_WIDTHS.len();

/// Counts about the limit, and such that a product with the width overflows.
const FAR_COUNTS: [usize; 8] = [(1 << 24) - 1, 1 << 24, (1 << 24) + 1, 1 << 32, 1 << 58, 1 << 61, 1 << 63, usize::MAX];

pub fn jobs(setting: Setting) -> usize {
    WIDTHS * setting.of([1, 2, 40])
}

pub fn run(job: &mut Job) {
    let width = match job.number % WIDTHS {
        number @ 0..=64 => number as u32,
        number => NO_WIDTHS[number - 65],
    };
    for count in counts(job.setting) {
        length(job, count, width);
        packed_and_back(job, count, width);
    }
    for count in FAR_COUNTS {
        length(job, count, width);
        if count > 1 << 24 {
            unpack(job, &[1, 2, 3], width, count);
        }
    }
}

fn counts(setting: Setting) -> Vec<usize> {
    match setting {
        Setting::Small => vec![0, 1, 2, 7, 8, 9, 128, 129],
        Setting::Quick => (0..=17).chain(23..=25).chain(31..=33).chain(127..=130).chain(255..=257).collect(),
        Setting::Full => (0..=70).chain(125..=131).chain(253..=259).chain(1020..=1030).collect(),
    }
}

fn packed_and_back(job: &mut Job, count: usize, width: u32) {
    let values: Vec<u64> = match job.source.below(4) {
        0 => vec![u64::MAX; count],
        1 => (0..count).map(|_| job.source.any_width()).collect(),
        _ => (0..count).map(|_| job.source.word()).collect(),
    };
    pack(job, &values, width);
    let needed = if width <= 64 { packed_len(count, width) } else { 9 };
    for length in [needed, needed + 1 + count % 9, needed.saturating_sub(1), 0] {
        let bytes = packed_bytes(&mut job.source, length);
        unpack(job, &bytes, width, count);
    }
}

/// Random bytes, so that spare bits are set too.
fn packed_bytes(source: &mut Source, length: usize) -> Vec<u8> {
    match source.below(4) {
        0 => vec![0xff; length],
        _ => source.bytes(length),
    }
}
