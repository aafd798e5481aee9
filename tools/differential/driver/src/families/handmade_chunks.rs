//! The chunks of the generator of stored answers: each question of document 01 is met, where it is answered yes and where no.

use crate::compare::reading::{chunk, ALL_NAMES};
use crate::handmade;
use crate::job::{Job, Setting};
use basalt_encoding::{varint::read_uvarint, MAX_CHUNK_ELEMENTS};

/// So many chunks are a job.
const STEP: usize = 40;

/// Outside the full setting no longer column is read: that takes a second.
const LONGEST: u64 = 1 << 20;

pub fn jobs(setting: Setting) -> usize {
    chunks(setting).len().div_ceil(STEP)
}

pub fn run(job: &mut Job) {
    for bytes in chunks(job.setting).iter().skip(job.number * STEP).take(STEP) {
        chunk(job, bytes, &ALL_NAMES);
    }
}

fn chunks(setting: Setting) -> Vec<Vec<u8>> {
    let mut all = handmade::all();
    if setting != Setting::Full {
        let long = LONGEST + 1..=MAX_CHUNK_ELEMENTS as u64;
        all.retain(|chunk| !read_uvarint(chunk, &mut 2).is_ok_and(|count| long.contains(&count)));
    }
    all.into_iter().step_by(setting.of([5, 1, 1])).collect()
}
