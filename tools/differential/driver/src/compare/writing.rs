//! Columns written: to outputs that are long enough and too short, with scratches that are too, and with numbers of no encoding.

use crate::answer::{Answer, Verdict};
use crate::calls::Call;
use crate::compare::column::{Facts, Written};
use crate::job::Job;
use crate::original::ask;
use crate::reading::write;
use crate::show;
use basalt_encoding::{Encoding, MAX_DICTIONARY_CARDINALITY};

/// Id, version, and the count as a varint of four bytes.
const LONGEST_HEADER: usize = 6;

#[derive(Clone, Copy)]
struct Writing {
    encoding: u32,
    places: usize,
    size: usize,
}

/// What a call should leave at the front of each buffer.
#[derive(Clone, Copy, Default)]
struct Stored<'a> {
    out: &'a [u8],
    scratch: &'a [i64],
}

/// How many places of a scratch a call needs that collects the distinct values.
pub fn places_needed(column: &[i64]) -> usize {
    column.len().min(MAX_DICTIONARY_CARDINALITY)
}

/// The column in one encoding. A Dictionary encode that passes 22 leaves the distinct values in the scratch, whatever it answers then.
/// The original writes a Dictionary of more than 16,384 of them, which document 01 refuses.
pub fn column(job: &mut Job, column: &[i64], written: &Written, facts: &Facts) {
    let encoding = written.encoding.as_u8().into();
    let dictionary = written.encoding == Encoding::Dictionary;
    let needed = places_needed(column);
    let places = job.desk.spare() + if dictionary { needed } else { 0 };
    let scratch = if dictionary { &facts.kept[..] } else { &[] };
    let (chunk, length) = (&written.chunk[..], written.chunk.len());
    let mut call = |size: usize, wanted: Answer, out: &[u8]| {
        compare(job, column, Writing { encoding, places, size }, wanted, Stored { out, scratch });
    };
    if dictionary && facts.too_many {
        call(length, Answer::added(23, 0), &[]);
        call(0, Answer::added(23, 0), &[]);
    } else {
        call(length, Answer::accepted(length), chunk);
        call(length + 1 + places % 7, Answer::accepted(length), chunk);
        call(length - 1, Answer::added(20, length), &[]);
        call(0, Answer::added(20, length), &[]);
    }
    if dictionary && needed > 0 {
        let places = job.desk.one_of(&[needed - 1, 0]);
        compare(job, column, Writing { encoding, places, size: length }, Answer::added(22, 0), Stored::default());
    }
}

/// "encoding 1 to 7? 2, at 0", which is asked first: the original is asked for 8 and 9, and has no others.
pub fn no_encodings(job: &mut Job, column: &[i64]) {
    job.desk.hold_column(column);
    for encoding in [Encoding::PlainBytes, Encoding::ByteLz] {
        let wanted = match ask(|| write(column, encoding)) {
            Ok(answer) => answer.map_or_else(Answer::refused, |chunk| Answer::accepted(chunk.len())),
            Err(message) => return job.tally.panicked(&message, column.len(), || show::keys(column)),
        };
        refused(job, column, encoding.as_u8().into(), wanted);
    }
    for encoding in [0, 10, 11, 255, 256, 257, 1 << 16, u32::MAX] {
        refused(job, column, encoding, Answer::added(2, 0));
    }
}

/// More than 2^24 keys, which the original writes: 21, after 2.
pub fn too_many(job: &mut Job, column: &[i64]) {
    job.desk.hold_column(column);
    for encoding in 1..=7 {
        refused(job, column, encoding, Answer::added(21, 0));
    }
    refused(job, column, 8, Answer::added(2, 0));
}

/// A refusal that comes before any buffer is looked at, with buffers that have nothing or much of what a chunk would need.
fn refused(job: &mut Job, column: &[i64], encoding: u32, wanted: Answer) {
    let places = job.desk.refused_room(places_needed(column));
    let size = job.desk.refused_room(LONGEST_HEADER + size_of_val(column));
    let writing = Writing { encoding, places, size };
    compare(job, column, writing, wanted, Stored::default());
}

fn compare(job: &mut Job, column: &[i64], writing: Writing, wanted: Answer, stored: Stored) {
    let Writing { encoding, places, size } = writing;
    let returned = job.desk.encode_integers(encoding, places, size);
    let desk = &job.desk;
    let mut verdict = Verdict::of(returned, &desk.place, wanted);
    verdict.left("out", &desk.out, stored.out);
    verdict.left("scratch", &desk.scratch, stored.scratch);
    verdict.left("column", &desk.column, column);
    job.tally.count(Call::EncodeIntegers, verdict, column.len(), || {
        let text =
            |answer: String, out, scratch| format!("{answer}; out {}; scratch {}", show::hex(out), show::keys(scratch));
        let found = show::answer(returned, desk.place.front(1)[0]);
        [
            format!("in encoding {encoding}, with a scratch of {places} places, to an output of {size} bytes"),
            show::keys(column),
            text(show::wanted(wanted), stored.out, stored.scratch),
            text(found, desk.out.front(size), desk.scratch.front(places)),
        ]
    });
}
