//! Every chunk of a few bytes, and every tail of up to two bytes behind the beginnings of chunks.

use crate::compare::reading::{chunk, ALL_NAMES};
use crate::job::{Job, Setting};
use crate::pieces::Pieces;

/// The tails behind a beginning are so many jobs: the first has no byte and every single one, each other one all second bytes
/// behind a first.
const PARTS: usize = 257;

pub fn jobs(setting: Setting) -> usize {
    setting.of([9, PARTS, PARTS + 256 * 256])
}

/// All chunks of up to two bytes, then those of three by their first two.
pub fn run(job: &mut Job) {
    match (job.setting, job.number) {
        (Setting::Small, part) => tails(job, &[], 7 * part, &ALL_NAMES),
        (_, part @ 0..PARTS) => tails(job, &[], part, &ALL_NAMES),
        (_, number) => {
            let [_, .., first, second] = (number - PARTS).to_be_bytes();
            for third in 0..=0xff {
                three_bytes(job, [first, second, third]);
            }
        }
    }
}

/// By every name where the first byte is an id; else without a name and by one of the names, since each refuses them alike.
fn three_bytes(job: &mut Job, bytes: [u8; 3]) {
    match bytes[0] {
        1..=9 => chunk(job, &bytes, &ALL_NAMES),
        _ => chunk(job, &bytes, &[0, 1 + bytes[2] % 7]),
    }
}

pub fn tail_jobs(setting: Setting) -> usize {
    let parts = setting.of([4, PARTS, PARTS]);
    beginnings(setting).len() * parts
}

pub fn run_tails(job: &mut Job) {
    let beginnings = beginnings(job.setting);
    let part = job.number / beginnings.len();
    // in the small setting the tails that begin with 0, 1 and 128, beside the shortest
    let part = if job.setting == Setting::Small { [0, 1, 2, 129][part] } else { part };
    let beginning = &beginnings[job.number % beginnings.len()];
    if job.setting == Setting::Full {
        tails(job, beginning, part, &ALL_NAMES);
    } else {
        tails(job, beginning, part, &[0, beginning[0], 1 + (part % 7) as u8]);
    }
}

/// An id with its version, with a count too, and with what comes next in layouts that have varints there.
fn beginnings(setting: Setting) -> Vec<Vec<u8>> {
    let counts: &[u64] = setting.of([&[1], &[3], &[0, 1, 2, 3, 9, 127, 128, 300]]);
    let mut all = Vec::new();
    for id in 1..=7 {
        all.push(Pieces::of(id).done());
        for &count in counts {
            all.push(Pieces::header(id, count).done());
        }
    }
    if setting == Setting::Full {
        all.extend(begun_bodies());
    }
    all
}

fn begun_bodies() -> Vec<Vec<u8>> {
    let runs = || Pieces::header(5, 3).unsigned(2);
    let dictionary = || Pieces::header(6, 3).unsigned(2).signed(-5);
    let delta = || Pieces::header(7, 4).signed(i64::MAX).unsigned(2);
    let begun = [
        Pieces::header(2, 2).signed(-70),
        Pieces::header(4, 2).word(i64::MIN),
        runs(),
        runs().signed(4),
        runs().signed(4).unsigned(1),
        dictionary(),
        dictionary().unsigned(9),
        Pieces::header(6, 2).unsigned(0),
        Pieces::header(7, 1).signed(6),
        delta(),
        delta().signed(1),
        delta().signed(1).byte(2).byte(6),
        delta().signed(1).byte(2).byte(6).signed(-1),
    ];
    begun.into_iter().map(Pieces::done).collect()
}

fn tails(job: &mut Job, beginning: &[u8], part: usize, names: &[u8]) {
    let mut bytes = beginning.to_vec();
    match part.checked_sub(1) {
        None => chunk(job, &bytes, names),
        Some(first) => bytes.push(first as u8),
    }
    for last in 0..=0xff {
        bytes.push(last);
        chunk(job, &bytes, names);
        bytes.pop();
    }
}
