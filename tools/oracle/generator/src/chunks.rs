//! `chunks.bin`: chunks, good and bad, with the answers to all eight readings.

use std::collections::{BTreeMap, BTreeSet};

use crate::file::{AnswerFile, Record};
use crate::handmade;
use crate::numbers::{checksum_keys, Source};
use crate::pieces::Pieces;
use crate::reading::{chunk_of, read, ENCODINGS};
use crate::refusal::Refusal;
use crate::shapes;

const SEED: u64 = 0x6368_756e_6b73_0001;

const WITH_VALUES: u8 = 1;
const WITH_CHECKSUM: u8 = 2;

/// Columns with more values than these are stored as a count and a checksum.
const MOST_VALUES: usize = 64;

/// How often each answer must be met at least.
const FEWEST: usize = 5;

/// How a chunk was made.
const ORIGINS: [&str; 6] = ["handmade", "good", "cut", "damaged", "random", "short"];

pub fn file() -> AnswerFile {
    let mut file = AnswerFile::new(
        "chunks",
        SEED,
        &[(WITH_VALUES, "a chunk, its values stored"), (WITH_CHECKSUM, "a chunk, a checksum of its values stored")],
    );
    let mut met = BTreeMap::new();
    for (origin, chunks) in chunks(&mut Source::new(SEED)).iter().enumerate() {
        file.note(format!("chunks {origin} ({}): {}", ORIGINS[origin], chunks.len()));
        for chunk in chunks {
            file.push(chunk_record(origin, chunk, &mut met));
        }
    }
    for number in 0..=19 {
        let times = met.get(&number).copied().unwrap_or(0);
        assert!(times >= FEWEST, "answer {number} is met {times} times");
        file.note(format!("answers with number {number}: {times}"));
    }
    file
}

/// The chunks by origin, none twice.
fn chunks(source: &mut Source) -> [Vec<Vec<u8>>; 6] {
    let good = good_chunks(source);
    let mut all = [
        handmade::all(),
        good.clone(),
        cut_chunks(&good),
        damaged_chunks(&good, source),
        random_chunks(source),
        short_chunks(),
    ];
    let mut seen = BTreeSet::new();
    for chunks in &mut all {
        chunks.retain(|chunk| seen.insert(chunk.clone()));
    }
    all
}

/// Chunks of short columns in all seven encodings, and some of more than one block of deltas.
fn good_chunks(source: &mut Source) -> Vec<Vec<u8>> {
    let noise: Vec<i64> = (0..4).map(|_| source.word() as i64).collect();
    let small: Vec<i64> = (0..7).map(|_| source.below(9) as i64 - 4).collect();
    let mut columns = shapes::samples();
    columns.extend([
        noise,
        small,
        (0..6).map(|i| 1_000_000 + 3 * i).collect(),
        vec![-70, -70, -70, 1 << 40, 1 << 40, 8],
    ]);
    columns
        .iter()
        .flat_map(|column| ENCODINGS.map(|encoding| chunk_of(column, encoding)))
        .filter(|chunk| chunk.len() <= 300)
        .collect()
}

/// Every beginning of the short good chunks.
fn cut_chunks(good: &[Vec<u8>]) -> Vec<Vec<u8>> {
    let short = good.iter().filter(|chunk| chunk.len() <= 24);
    short.flat_map(|chunk| (0..chunk.len()).map(|length| chunk[..length].to_vec())).collect()
}

/// The short good chunks with one byte changed: each byte in two ways.
fn damaged_chunks(good: &[Vec<u8>], source: &mut Source) -> Vec<Vec<u8>> {
    let mut all = Vec::new();
    for chunk in good.iter().filter(|chunk| chunk.len() <= 18) {
        for place in 0..chunk.len() {
            for change in [1 << source.below(8), source.byte()] {
                let mut damaged = chunk.clone();
                damaged[place] ^= change;
                all.push(damaged);
            }
        }
    }
    all
}

/// Random bytes behind each id: bare, behind a good version, and behind a header with a small count.
fn random_chunks(source: &mut Source) -> Vec<Vec<u8>> {
    let mut all = Vec::new();
    for turn in 0..80 {
        for id in 1..=7 {
            let length = source.below(18) as usize;
            let bytes = source.bytes(length);
            all.push(match turn % 8 {
                0 => [&[id], &bytes[..]].concat(),
                1 => Pieces::of(id).bytes(&bytes).done(),
                // small bytes are likelier to pass for widths, totals and lengths
                2..=4 => Pieces::header(id, source.below(6)).bytes(&bytes).done(),
                _ => {
                    let small: Vec<u8> = bytes.iter().map(|byte| byte % 8).collect();
                    Pieces::header(id, source.below(6)).bytes(&small).done()
                }
            });
        }
    }
    all
}

/// No byte, every single byte, and headers with up to two bytes more.
fn short_chunks() -> Vec<Vec<u8>> {
    let mut all = vec![vec![]];
    all.extend((0..=0xff).map(|byte| vec![byte]));
    for id in 1..=7 {
        for third in [0, 1, 2, 3, 0x7f, 0x80, 0xff] {
            all.push(vec![id, 1, third]);
            for fourth in [0, 1, 2, 3, 0x40, 0x41, 0x80, 0xff] {
                all.push(vec![id, 1, third, fourth]);
            }
        }
    }
    all
}

fn chunk_record(origin: usize, chunk: &[u8], met: &mut BTreeMap<u8, usize>) -> Record {
    let readings = Readings::of(chunk);
    let column = readings.column.unwrap_or_default();
    let stored = column.len() <= MOST_VALUES;

    let mut record = Record::new(if stored { WITH_VALUES } else { WITH_CHECKSUM });
    record.u8(origin as u8);
    record.u16(chunk.len());
    record.bytes(chunk);
    record.u8(readings.answers.len() as u8);
    for (refused, names) in readings.answers {
        let refused = refused.unwrap_or(Refusal { number: 0, offset: Some(0) });
        *met.entry(refused.number).or_default() += names.count_ones() as usize;
        record.u8(names);
        record.u8(refused.number);
        record.u32(refused.offset.expect("an offset in every refusal to read") as usize);
    }
    record.u32(column.len());
    if stored {
        record.keys(&column);
    } else {
        record.u64(checksum_keys(&column));
    }
    record
}

/// What the eight readings of a chunk answer.
#[derive(Default)]
struct Readings {
    /// Each answer once, with a bit for each of its readings: bit 0 for the unnamed one, bit n for the one named n.
    answers: Vec<(Option<Refusal>, u8)>,
    /// The column, where a reading accepts.
    column: Option<Vec<i64>>,
}

impl Readings {
    fn of(chunk: &[u8]) -> Self {
        let mut readings = Readings::default();
        for name in 0..=7 {
            match read(name, chunk) {
                Ok(column) => {
                    assert!(readings.column.as_ref().is_none_or(|known| *known == column));
                    readings.column = Some(column);
                    readings.add(name, None);
                }
                Err(refused) => readings.add(name, Some(refused)),
            }
        }
        readings
    }

    fn add(&mut self, name: u8, refused: Option<Refusal>) {
        match self.answers.iter_mut().find(|(known, _)| *known == refused) {
            Some((_, names)) => *names |= 1 << name,
            None => self.answers.push((refused, 1 << name)),
        }
    }
}
