//! Statistics, distinct values, estimates and plans of a column, at all levels; f64 fields by their bits, as every word is.

use crate::answer::{Answer, Verdict};
use crate::c_api::{ESTIMATES_WORDS, PLAN_WORDS, STATS_WORDS};
use crate::calls::Call;
use crate::compare::column::Facts;
use crate::compare::writing::places_needed;
use crate::desk::Desk;
use crate::job::Job;
use crate::show;

/// "every number 0, Constant, Exact(0), Plain, Empty .. and no candidate available"
const REFUSED_STATS: [u64; STATS_WORDS] = {
    let mut words = [0; STATS_WORDS];
    words[CARDINALITY_IS_EXACT] = 1;
    words
};
const REFUSED_ESTIMATES: [u64; ESTIMATES_WORDS] = [0; ESTIMATES_WORDS];
const REFUSED_PLAN: [u64; PLAN_WORDS] = {
    let mut words = [0; PLAN_WORDS];
    words[ENCODING] = 1;
    words
};

/// Words of the structs.
const CARDINALITY_IS_EXACT: usize = 7;
const ENCODING: usize = 0;

/// Levels that the original has none of.
pub const NO_LEVELS: [u32; 5] = [10, 11, 255, 256, u32::MAX];

#[derive(Clone, Copy)]
struct Analysis {
    call: Call,
    level: u32,
    places: usize,
}

/// What a call should leave: the words of each struct that it fills, and the front of the scratch.
struct Left<'a> {
    stats: &'a [u64],
    estimates: &'a [u64],
    plan: &'a [u64],
    scratch: &'a [i64],
}

/// The column that is held, with a scratch that is long enough and one that is too short.
pub fn column(job: &mut Job, column: &[i64], facts: &Facts) {
    let needed = places_needed(column);
    let places = needed + job.desk.spare();
    let kept = Answer::accepted(facts.kept.len());
    // "the part is empty above 16,384", where the original has none
    let handed_back = if facts.too_many { Answer::added(0, 0) } else { kept };
    for (call, wanted) in
        [(Call::AnalyzeIntegers, kept), (Call::DistinctValues, handed_back), (Call::EstimateSizes, kept)]
    {
        let left = left(call, &facts.stats, &facts.estimates, &[], &facts.kept);
        compare(job, column, Analysis { call, level: 0, places }, wanted, left);
    }
    for (level, plan) in (0..).zip(&facts.plans) {
        let left = left(Call::Analyze, &[], &[], plan, &facts.kept);
        compare(job, column, Analysis { call: Call::Analyze, level, places }, kept, left);
    }
    if needed > 0 {
        let places = job.desk.one_of(&[needed - 1, 0]);
        refused(job, column, 22, places);
    }
    let level = job.desk.one_of(&NO_LEVELS);
    compare_refused(job, column, Analysis { call: Call::Analyze, level, places }, 24);
}

/// More than 2^24 keys: 21, but 24 where there is no such level.
pub fn too_many(job: &mut Job, column: &[i64]) {
    job.desk.hold_column(column);
    refused(job, column, 21, places_needed(column));
    refused(job, column, 21, 0);
    compare_refused(job, column, Analysis { call: Call::Analyze, level: 10, places: 0 }, 24);
}

/// All four calls, refused with a number at 0.
fn refused(job: &mut Job, column: &[i64], number: u64, places: usize) {
    for call in [Call::AnalyzeIntegers, Call::DistinctValues, Call::EstimateSizes, Call::Analyze] {
        compare_refused(job, column, Analysis { call, level: 6, places }, number);
    }
}

fn compare_refused(job: &mut Job, column: &[i64], analysis: Analysis, number: u64) {
    let left = left(analysis.call, &REFUSED_STATS, &REFUSED_ESTIMATES, &REFUSED_PLAN, &[]);
    compare(job, column, analysis, Answer::added(number, 0), left);
}

/// Only the structs that the call fills: the others must keep their old contents.
fn left<'a>(call: Call, stats: &'a [u64], estimates: &'a [u64], plan: &'a [u64], scratch: &'a [i64]) -> Left<'a> {
    let (stats, estimates, plan): (&[u64], &[u64], &[u64]) = match call {
        Call::AnalyzeIntegers => (stats, &[], &[]),
        Call::EstimateSizes => (stats, estimates, &[]),
        Call::Analyze => (&[], &[], plan),
        _ => (&[], &[], &[]),
    };
    Left { stats, estimates, plan, scratch }
}

fn compare(job: &mut Job, column: &[i64], analysis: Analysis, wanted: Answer, left: Left) {
    let returned = make(job.desk, analysis);
    let desk = &job.desk;
    let mut verdict = Verdict::of(returned, &desk.place, wanted);
    verdict.left("stats", &desk.stats, left.stats);
    verdict.left("estimates", &desk.estimates, left.estimates);
    verdict.left("plan", &desk.plan, left.plan);
    verdict.left("scratch", &desk.scratch, left.scratch);
    verdict.left("column", &desk.column, column);
    job.tally.count(analysis.call, verdict, column.len(), || {
        let found = Left {
            stats: desk.stats.front(left.stats.len()),
            estimates: desk.estimates.front(left.estimates.len()),
            plan: desk.plan.front(left.plan.len()),
            scratch: desk.scratch.front(analysis.places),
        };
        let level =
            if analysis.call == Call::Analyze { format!("at level {}, ", analysis.level) } else { String::new() };
        [
            format!("{level}with a scratch of {} places", analysis.places),
            show::keys(column),
            text(show::wanted(wanted), &left),
            text(show::answer(returned, desk.place.front(1)[0]), &found),
        ]
    });
}

fn make(desk: &mut Desk, analysis: Analysis) -> u64 {
    let Analysis { call, level, places } = analysis;
    match call {
        Call::AnalyzeIntegers => desk.analyze_integers(places),
        Call::DistinctValues => desk.distinct_values(places),
        Call::EstimateSizes => desk.estimate_sizes(places),
        _ => desk.analyze(level, places),
    }
}

fn text(answer: String, left: &Left) -> String {
    let words = [("stats", left.stats), ("estimates", left.estimates), ("plan", left.plan)];
    let filled = words.iter().filter(|(_, words)| !words.is_empty());
    let structs: String = filled.map(|(name, words)| format!("; {name} {}", show::keys(words))).collect();
    format!("{answer}{structs}; scratch {}", show::keys(left.scratch))
}
