//! `plan`: the lengths of all seven encodings, and which of them is chosen and why.

use warpboulder::{
    estimate_sizes, try_analyze, try_analyze_integers, CompressionLevel, Encoding, EncodingPlan, Error, IntegerStats,
    PlanReason, SizeEstimates, MAX_DICTIONARY_CARDINALITY,
};

use crate::arguments::Arguments;
use crate::bar::bar;
use crate::failure::Failure;
use crate::options;
use crate::output::print;
use crate::progress::Progress;
use crate::table::{self, Align};
use crate::terminal::Style;
use crate::wording::{counted, grouped, listed, percent, share};

const BAR_WIDTH: usize = 24;
const DELTA_NOTE: &str = "DeltaBinaryPacked's length is an upper bound; the other lengths are exact.";

/// A column with all that is told of it.
struct Planned {
    title: String,
    level: CompressionLevel,
    stats: IntegerStats,
    estimates: SizeEstimates,
    plan: EncodingPlan,
}

pub fn run(arguments: &Arguments) -> Result<(), Failure> {
    let source = options::key_source("plan", arguments)?;
    let level = options::level(arguments)?;
    let progress = Progress::start();
    let column = source.read(&progress)?;
    progress.phase("planning", None);
    let refused = |error: Error| Failure::Failed(format!("{}: {error}.", column.title));
    let stats = try_analyze_integers(&column.keys).map_err(refused)?;
    let plan = try_analyze(&column.keys, level).map_err(refused)?;
    drop(progress);
    let planned = Planned { title: column.title.clone(), level, estimates: estimate_sizes(&stats), stats, plan };
    print(&planned.report(Style::of_standard_output()))
}

impl Planned {
    fn report(&self, style: Style) -> String {
        let keys = counted(self.stats.count, "key", "keys");
        let heading = format!("{}: {keys}, level {}", style.strong(&self.title), self.level.get());
        let table = self.table(style).join("\n");
        let conclusion = table::lines([Align::Left, Align::Left], &self.conclusion()).join("\n");
        let note = self.estimates.delta.map_or(String::new(), |_| format!("\n{}\n", style.faint(DELTA_NOTE)));
        format!("{heading}\n\n{table}\n\n{conclusion}\n{note}")
    }

    fn table(&self, style: Style) -> Vec<String> {
        let heads = ["encoding", "bytes", "of Plain", "", ""].map(str::to_string);
        let rows: Vec<[String; 5]> =
            std::iter::once(heads).chain(Encoding::ALL.map(|encoding| self.row(encoding, style))).collect();
        let align = [Align::Left, Align::Right, Align::Right, Align::Left, Align::Left];
        let mut lines = table::lines(align, &rows);
        lines[0] = style.faint(&lines[0]);
        for (line, encoding) in lines.iter_mut().skip(1).zip(Encoding::ALL) {
            if encoding == self.plan.encoding {
                *line = style.good(line);
            } else if self.length(encoding).is_none() {
                *line = style.faint(&format!("{line}  {}", why_unavailable(encoding)));
            }
        }
        lines
    }

    fn row(&self, encoding: Encoding, style: Style) -> [String; 5] {
        let name = encoding.name().to_string();
        let Some(length) = self.length(encoding) else {
            return [name, "-".to_string(), "-".to_string(), String::new(), String::new()];
        };
        let longest = self.estimates.candidates().iter().map(|(_, length)| *length).max().unwrap_or(length);
        let bar = bar(share(length, longest), BAR_WIDTH, style.unicode);
        let chosen = if encoding == self.plan.encoding { "chosen" } else { "" };
        [name, grouped(length), percent(share(length, self.estimates.plain)), bar, chosen.to_string()]
    }

    fn length(&self, encoding: Encoding) -> Option<usize> {
        self.estimates.candidates().into_iter().find(|(candidate, _)| *candidate == encoding).map(|(_, length)| length)
    }

    fn reason(&self) -> String {
        let level = self.level.get();
        let asked = format!("level {level} asks for {:.0}%", self.level.minimum_gain() * 100.0);
        match (self.plan.reason, self.plan.encoding) {
            (PlanReason::Empty, _) => "there are no keys, so the column stays Plain".to_string(),
            (PlanReason::CompressionDisabled, _) => {
                format!("level {level} asks for no compression, so the column stays Plain")
            }
            (PlanReason::SmallestEstimate, Encoding::Plain) => "no other encoding is shorter".to_string(),
            (PlanReason::SmallestEstimate, _) => {
                let gain = gain(self.plan.estimated_bytes, self.plan.plain_bytes);
                format!("the shortest; it saves {gain} of Plain, and {asked}")
            }
            (PlanReason::GainBelowThreshold, _) => self.too_little_gain(&asked),
        }
    }

    fn too_little_gain(&self, asked: &str) -> String {
        let rank = |(encoding, length): &(Encoding, usize)| (*length, encoding.decode_cost_rank());
        let plain = (Encoding::Plain, self.estimates.plain);
        let (encoding, length) = self.estimates.candidates().into_iter().min_by_key(rank).unwrap_or(plain);
        let gain = gain(length, self.plan.plain_bytes);
        format!("{} saves only {gain} of Plain, and {asked}", encoding.name())
    }

    /// The others that are as short as the one chosen for its length.
    fn tie(&self) -> Option<String> {
        let is_equal = |(encoding, length): &(Encoding, usize)| {
            *length == self.plan.estimated_bytes && *encoding != self.plan.encoding
        };
        let others = self.estimates.candidates().into_iter().filter(is_equal);
        let names: Vec<&str> = others.map(|(encoding, _)| encoding.name()).collect();
        let is_tie = !names.is_empty() && self.plan.reason == PlanReason::SmallestEstimate;
        is_tie.then(|| format!("{}, but not read faster", listed(&names, "and")))
    }

    fn conclusion(&self) -> Vec<[String; 2]> {
        let (plain, planned) = (grouped(self.plan.plain_bytes), grouped(self.plan.estimated_bytes));
        let runs = counted(self.stats.run_count, "run", "runs");
        let keys = counted(self.stats.count, "key", "keys");
        let mut rows = vec![
            ("chosen", format!("{}, {planned} bytes", self.plan.encoding.name())),
            ("reason", self.reason()),
            ("run density", format!("{:.4} ({runs} in {keys})", self.stats.run_density())),
            ("ratio", format!("{:.2} (Plain's {plain} bytes by {planned})", self.plan.estimated_ratio())),
        ];
        rows.extend(self.tie().map(|others| ("as short", others)));
        rows.into_iter().map(|(what, value)| [what.to_string(), value]).collect()
    }
}

/// Only these two are ever unavailable.
fn why_unavailable(encoding: Encoding) -> String {
    match encoding {
        Encoding::Dictionary => {
            format!("unavailable: over {} distinct keys", grouped(MAX_DICTIONARY_CARDINALITY))
        }
        _ => "unavailable: fewer than two keys".to_string(),
    }
}

/// What a length saves of Plain's, in percent with two digits, cut and not rounded: 4.999% must not look like the 5% that it misses.
fn gain(length: usize, plain: usize) -> String {
    let hundredths = plain.saturating_sub(length) as u64 * 10_000 / (plain as u64).max(1);
    format!("{}.{:02}%", hundredths / 100, hundredths % 100)
}

#[cfg(test)]
mod tests {
    use super::gain;

    #[test]
    fn a_gain_is_cut_to_two_digits() {
        assert_eq!(gain(1007, 1060), "5.00%");
        assert_eq!(gain(1008, 1060), "4.90%");
        assert_eq!(gain(9_500_001, 10_000_000), "4.99%");
        assert_eq!(gain(0, 10), "100.00%");
        assert_eq!(gain(20, 10), "0.00%");
    }
}
