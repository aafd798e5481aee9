//! Varints: all of up to two bytes, random ones most of whose bytes go on, at every place and far behind the end.

use crate::compare::varint::{read, write};
use crate::families::numbers::edges;
use crate::job::{Job, Setting};
use crate::numbers::Source;

/// Places behind the end of any buffer here.
const FAR: [usize; 4] = [1 << 20, (1 << 63) - 1, 1 << 63, usize::MAX];

pub fn jobs(setting: Setting) -> usize {
    setting.of([2, 40, 800])
}

pub fn run(job: &mut Job) {
    match job.number {
        0 => all_short(job),
        1 => edges().for_each(|bits| write(job, bits)),
        _ => (),
    }
    for _ in 0..job.setting.of([20, 400, 400]) {
        let bytes = long_varints(&mut job.source);
        read_everywhere(job, &bytes);
        let bits = job.source.any_width();
        write(job, bits);
    }
}

/// No byte, every byte, every two bytes; in the small setting a part of these.
fn all_short(job: &mut Job) {
    read_everywhere(job, &[]);
    let step = job.setting.of([11, 1, 1]);
    for first in (0..=0xff).step_by(step) {
        read_everywhere(job, &[first]);
        for second in (0..=0xff).step_by(step) {
            read_everywhere(job, &[first, second]);
        }
    }
}

fn read_everywhere(job: &mut Job, bytes: &[u8]) {
    for at in 0..=bytes.len() + 1 {
        read(job, bytes, at);
    }
    let far = FAR[bytes.len() % FAR.len()];
    read(job, bytes, far);
}

/// Bytes of which most have the top bit, so that varints of up to eleven bytes stand among them; many zeros at their ends.
fn long_varints(source: &mut Source) -> Vec<u8> {
    let length = source.below(25);
    let ends = 2 + source.below(12);
    (0..length)
        .map(|_| match (source.below(ends), source.below(3)) {
            (0, 0) => 0,
            (0, _) => source.byte() & 0x7f,
            _ => source.byte() | 0x80,
        })
        .collect()
}
