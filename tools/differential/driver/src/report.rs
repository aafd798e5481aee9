//! What is printed.

use crate::calls::NAMES;
use crate::job::Setting;
use crate::options::Options;
use crate::plants::{Plant, PLANTS};
use crate::run;
use crate::show;
use crate::tally::{Difference, Tally};
use std::time::Instant;

/// Compares the families, prints the table and the smallest difference. Whether there was none, and nothing was left out.
pub fn comparison(options: &Options) -> bool {
    let start = Instant::now();
    println!("{:<16}{:>14}{:>13}{:>10}   what", "family", "cases", "differences", "seconds");
    let mut all = Tally::new();
    let mut smallest_in = "";
    for (number, family) in options.families() {
        let start = Instant::now();
        let tally = run::family(number, family, options, options.plant);
        row(family.name, &tally, start, family.what);
        let before = all.smallest.as_ref().map(|difference| difference.size);
        all.add(tally);
        if all.smallest.as_ref().map(|difference| difference.size) != before {
            smallest_in = family.name;
        }
    }
    row("all", &all, start, "");
    functions(&all);
    println!("\nseed {}", options.seed);
    let left_out = left_out(&all, options.family);
    match (&all.smallest, &left_out) {
        (Some(difference), _) => show_difference(difference, smallest_in, options),
        (None, Some(left_out)) => println!("{left_out}"),
        (None, None) => println!("No difference."),
    }
    all.differences == 0 && left_out.is_none()
}

/// What a run has not compared, in words: without it, a run that compares nothing would find no difference. One family alone need not
/// call every function.
fn left_out(tally: &Tally, family: Option<&str>) -> Option<String> {
    if tally.total() == 0 {
        return Some("There was no case in this setting: nothing was compared.".to_string());
    }
    let uncalled: Vec<&str> =
        NAMES.into_iter().zip(tally.cases).filter(|&(_, cases)| cases == 0).map(|(name, _)| name).collect();
    (family.is_none() && !uncalled.is_empty()).then(|| format!("There was no case of {}.", uncalled.join(", ")))
}

fn row(name: &str, tally: &Tally, start: Instant, what: &str) {
    let [cases, differences] = [tally.total(), tally.differences].map(show::number);
    let line = format!("{name:<16}{cases:>14}{differences:>13}{:>10.1}   {what}", start.elapsed().as_secs_f64());
    println!("{}", line.trim_end());
}

/// A case is a call: how many there were of each function.
fn functions(tally: &Tally) {
    println!();
    for (name, &cases) in NAMES.iter().zip(&tally.cases) {
        println!("{name:<22}{:>16}", show::number(cases));
    }
}

fn show_difference(difference: &Difference, family: &str, options: &Options) {
    println!("\nThe smallest difference, in the family {family}:");
    for (heading, text) in &difference.lines {
        println!("  {heading:<8} {text}");
    }
    let setting = match options.setting {
        Setting::Small => " --small",
        Setting::Quick => " --quick",
        Setting::Full => "",
    };
    let plant = options.plant.map_or(String::new(), |plant| format!(" --plant {}", plant.name));
    println!("  {:<8} tools/differential/run{setting} --seed {} --family {family}{plant}", "again", options.seed);
}

/// Plants one error after the other, each until a difference is found, and prints a line for each. Whether all were found.
pub fn plants(options: &Options) -> bool {
    if let Some(found) = first_difference(options, None) {
        println!("There is a difference where nothing is planted, so no plant shows anything: {found}");
        return false;
    }
    let mut missed = 0;
    for plant in &PLANTS {
        let found = first_difference(options, Some(plant));
        missed += usize::from(found.is_none());
        let found = found.unwrap_or("NOT FOUND".to_string());
        println!("{:<24} {} - {found}", plant.name, plant.what);
    }
    println!("{} planted, {missed} not found", PLANTS.len());
    missed == 0
}

fn first_difference(options: &Options, plant: Option<&'static Plant>) -> Option<String> {
    options.families().find_map(|(number, family)| {
        let difference = run::family(number, family, options, plant).smallest?;
        let (_, differs) = difference.lines.last()?;
        Some(format!("found in {}: {differs}", family.name))
    })
}

#[cfg(test)]
mod tests {
    use super::*;

    fn tally_of(cases: [u64; NAMES.len()]) -> Tally {
        Tally { cases, ..Tally::new() }
    }

    #[test]
    fn a_run_without_cases_is_not_one_without_a_difference() {
        for family in [None, Some("long-columns")] {
            assert!(left_out(&Tally::new(), family).unwrap().contains("nothing was compared"));
        }
    }

    #[test]
    fn functions_that_were_not_called_are_named() {
        let mut cases = [1; NAMES.len()];
        assert_eq!(left_out(&tally_of(cases), None), None);
        (cases[0], cases[10]) = (0, 0);
        assert_eq!(left_out(&tally_of(cases), None).unwrap(), "There was no case of wb_zigzag_encode, wb_pack.");
        assert_eq!(left_out(&tally_of(cases), Some("numbers")), None);
    }
}
