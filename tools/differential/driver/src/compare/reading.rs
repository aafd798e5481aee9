//! Chunks read: named and not, strictly or not, to column buffers that are long enough and too short.

use crate::answer::{Answer, Verdict};
use crate::calls::Call;
use crate::job::Job;
use crate::original::ask;
use crate::reading::read;
use crate::show;
use crate::strict;
use basalt_encoding::varint::read_uvarint;

/// How a chunk is read: name 0 is the reading without a name.
#[derive(Clone, Copy)]
struct Reading {
    name: u32,
    strict: bool,
    room: usize,
}

/// What the original answers to one reading, and the keys; and what strict reading adds to that.
struct Answers {
    lenient: Answer,
    strict: Answer,
    keys: Vec<i64>,
}

/// Every reading: without a name and by each of the seven.
pub const ALL_NAMES: [u8; 8] = [0, 1, 2, 3, 4, 5, 6, 7];

/// Names that the original has none of: "is the name 1 to 7? 2", at 0.
const NO_NAMES: [u32; 8] = [0, 8, 9, 10, 255, 256, 257, u32::MAX];

/// A chunk by the readings of these names, and by one name that there is not.
pub fn chunk(job: &mut Job, chunk: &[u8], names: &[u8]) {
    job.desk.hold_bytes(chunk);
    for &name in names {
        match ask(|| answers(name, chunk)) {
            Ok(answers) => readings(job, chunk, name.into(), &answers),
            Err(message) => {
                let input = || format!("read with the name {name}: {}", show::hex(chunk));
                job.tally.panicked(&message, chunk.len(), input);
            }
        }
    }
    let (name, strict) = (job.desk.one_of(&NO_NAMES), job.desk.one_of(&[false, true]));
    let reading = Reading { name, strict, room: job.desk.refused_room(claimed_count(chunk)) };
    let returned = job.desk.decode_named(reading.name, reading.strict, reading.room);
    compare(job, Call::DecodeNamed, chunk, reading, returned, Answer::added(2, 0), &[]);
}

fn answers(name: u8, chunk: &[u8]) -> Answers {
    match read(name, chunk) {
        Ok(keys) => {
            let lenient = Answer::accepted(keys.len());
            Answers { lenient, strict: strict::refusal(chunk).unwrap_or(lenient), keys }
        }
        Err(refused) => {
            let lenient = Answer::refused(refused);
            Answers { lenient, strict: lenient, keys: Vec::new() }
        }
    }
}

/// One name, strictly and not. "Last: column buffer long enough? 20, offset the length needed."
fn readings(job: &mut Job, chunk: &[u8], name: u32, answers: &Answers) {
    let count = answers.keys.len();
    for (strict, wanted) in [(false, answers.lenient), (true, answers.strict)] {
        let room = match answers.lenient.number {
            0 => count + job.desk.spare(),
            _ => job.desk.refused_room(claimed_count(chunk)),
        };
        let stored = if wanted.number == 0 { &answers.keys[..] } else { &[] };
        one(job, chunk, Reading { name, strict, room }, wanted, stored);
        if count > 0 {
            let room = job.desk.one_of(&[count - 1, 0]);
            let wanted = if wanted.number == 0 { Answer::added(20, count) } else { wanted };
            one(job, chunk, Reading { name, strict, room }, wanted, &[]);
        }
    }
}

/// The keys that the header claims, which stand behind the id and the version; none where there is no varint.
fn claimed_count(chunk: &[u8]) -> usize {
    read_uvarint(chunk, &mut 2).map_or(0, |count| count as usize)
}

fn one(job: &mut Job, chunk: &[u8], reading: Reading, wanted: Answer, stored: &[i64]) {
    let (call, returned) = match reading.name {
        0 => (Call::DecodeIntegers, job.desk.decode_integers(reading.strict, reading.room)),
        name => (Call::DecodeNamed, job.desk.decode_named(name, reading.strict, reading.room)),
    };
    compare(job, call, chunk, reading, returned, wanted, stored);
}

fn compare(job: &mut Job, call: Call, chunk: &[u8], reading: Reading, returned: u64, wanted: Answer, stored: &[i64]) {
    let desk = &job.desk;
    let mut verdict = Verdict::of(returned, &desk.place, wanted);
    verdict.left("column", &desk.keys, stored);
    verdict.left("chunk", &desk.bytes, chunk);
    job.tally.count(call, verdict, chunk.len(), || {
        let Reading { name, strict, room } = reading;
        let how = if strict { "strictly" } else { "not strictly" };
        let found = show::answer(returned, desk.place.front(1)[0]);
        [
            format!("{how}, name {name}, to a column of {room} places"),
            show::hex(chunk),
            format!("{}: {}", show::wanted(wanted), show::keys(stored)),
            format!("{found}: {}", show::keys(desk.keys.front(room))),
        ]
    });
}
