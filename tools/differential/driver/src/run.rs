//! Runs the jobs of families on all processors.

use crate::desk::Desk;
use crate::families::Family;
use crate::job::{Job, Setting};
use crate::numbers::Source;
use crate::options::Options;
use crate::plants::Plant;
use crate::tally::Tally;
use std::sync::atomic::{AtomicUsize, Ordering};
use std::thread;

/// What the jobs of a family have in common.
struct Work<'a> {
    family: &'a Family,
    setting: Setting,
    /// The seed of the whole family.
    seed: u64,
    exact: bool,
    plant: Option<&'static Plant>,
    /// The next job that nobody has begun.
    next: AtomicUsize,
    jobs: usize,
    /// No job is begun any more after a difference.
    until_found: bool,
}

/// The family with that number in the list, all of it or until a difference is found.
pub fn family(number: usize, family: &Family, options: &Options, plant: Option<&'static Plant>) -> Tally {
    let work = Work {
        family,
        setting: options.setting,
        seed: Source::new(options.seed.wrapping_add(number as u64)).word(),
        exact: options.exact,
        plant,
        next: AtomicUsize::new(0),
        jobs: (family.jobs)(options.setting),
        until_found: options.plants,
    };
    let threads = thread::available_parallelism().map_or(1, usize::from).min(work.jobs);
    let mut tallies: Vec<(usize, Tally)> = thread::scope(|scope| {
        let running: Vec<_> = (0..threads).map(|_| scope.spawn(|| jobs(&work))).collect();
        running.into_iter().flat_map(|thread| thread.join().expect("a thread that ends")).collect()
    });
    // In the order of the jobs, so that of differences of one size always the same is shown.
    tallies.sort_unstable_by_key(|&(job, _)| job);
    tallies.into_iter().fold(Tally::new(), |mut sum, (_, tally)| {
        sum.add(tally);
        sum
    })
}

/// Takes jobs until there are none left.
fn jobs(work: &Work) -> Vec<(usize, Tally)> {
    let mut desk = Desk::new(work.exact, work.plant);
    let mut done = Vec::new();
    loop {
        let number = work.next.fetch_add(1, Ordering::Relaxed);
        if number >= work.jobs {
            return done;
        }
        let tally = job(work, number, &mut desk);
        if work.until_found && tally.differences > 0 {
            work.next.store(work.jobs, Ordering::Relaxed);
        }
        done.push((number, tally));
    }
}

fn job(work: &Work, number: usize, desk: &mut Desk) -> Tally {
    let mut source = Source::new(work.seed.wrapping_add(number as u64));
    desk.restart(source.word());
    let source = Source::new(source.word());
    let mut job = Job { setting: work.setting, number, source, desk, tally: Tally::new() };
    (work.family.run)(&mut job);
    job.tally
}
