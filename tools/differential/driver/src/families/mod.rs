//! The families of cases.

mod broken_chunks;
mod distinct;
mod foreign_chunks;
mod gain;
mod handmade_chunks;
mod long_columns;
mod numbers;
mod packing;
mod random_columns;
mod short_chunks;
mod small_columns;
mod varints;

use crate::job::{Job, Setting};

pub struct Family {
    pub name: &'static str,
    pub what: &'static str,
    /// How many jobs it has in a setting.
    pub jobs: fn(Setting) -> usize,
    pub run: fn(&mut Job),
}

pub const FAMILIES: [Family; 14] = [
    Family {
        name: "numbers",
        what: "ZigZag, widths, lengths of varints, the gains of levels",
        jobs: numbers::jobs,
        run: numbers::run,
    },
    Family {
        name: "varints",
        what: "varints read from every place, and written",
        jobs: varints::jobs,
        run: varints::run,
    },
    Family {
        name: "packing",
        what: "packed lengths, packing and unpacking at every width",
        jobs: packing::jobs,
        run: packing::run,
    },
    Family {
        name: "small-columns",
        what: "every column over small alphabets, up to a length",
        jobs: small_columns::jobs,
        run: small_columns::run,
    },
    Family {
        name: "random-columns",
        what: "columns of every shape, of lengths around every limit",
        jobs: random_columns::jobs,
        run: random_columns::run,
    },
    Family {
        name: "distinct",
        what: "columns of 16,383 to 16,386 distinct keys, and of 40,000",
        jobs: distinct::jobs,
        run: distinct::run,
    },
    Family {
        name: "gain",
        what: "columns whose best length is about the least gain of a level",
        jobs: gain::jobs,
        run: gain::run,
    },
    Family {
        name: "long-columns",
        what: "columns of up to 2^24 keys, and of more",
        jobs: long_columns::jobs,
        run: long_columns::run,
    },
    Family {
        name: "short-chunks",
        what: "every chunk of up to two bytes, three in the full setting",
        jobs: short_chunks::jobs,
        run: short_chunks::run,
    },
    Family {
        name: "tails",
        what: "every tail of up to two bytes behind ids, counts and begun bodies",
        jobs: short_chunks::tail_jobs,
        run: short_chunks::run_tails,
    },
    Family {
        name: "cut-chunks",
        what: "every beginning of written chunks",
        jobs: broken_chunks::cut_jobs,
        run: broken_chunks::run_cut,
    },
    Family {
        name: "damaged-chunks",
        what: "written chunks with changes, and random bytes behind headers",
        jobs: broken_chunks::damaged_jobs,
        run: broken_chunks::run_damaged,
    },
    Family {
        name: "foreign-chunks",
        what: "chunks that are read and that no writing makes",
        jobs: foreign_chunks::jobs,
        run: foreign_chunks::run,
    },
    Family {
        name: "handmade-chunks",
        what: "chunks made so that every question of document 01 is met",
        jobs: handmade_chunks::jobs,
        run: handmade_chunks::run,
    },
];
