//! Varints alone, read from a place and written.

use crate::answer::{Answer, Verdict};
use crate::calls::Call;
use crate::job::Job;
use crate::original::ask;
use crate::refusal::{self, refusal};
use crate::show;
use crate::strict::is_unpadded;
use basalt_common::BasaltError;
use basalt_encoding::varint;

/// What reading a varint should answer, and store: the value's bits, and whether it is unpadded.
struct Read {
    answer: Answer,
    value: u64,
    unpadded: u8,
}

/// Both readings of the varint at a place, which may lie anywhere behind the end.
pub fn read(job: &mut Job, bytes: &[u8], at: usize) {
    let answers = ask(|| {
        let (mut next, mut signed_next) = (at, at);
        let unsigned = varint::read_uvarint(bytes, &mut next);
        let signed = varint::read_varint(bytes, &mut signed_next);
        let signed = signed.map(|value| value as u64);
        [wanted(bytes, at, unsigned, next), wanted(bytes, at, signed, signed_next)]
    });
    let [unsigned, signed] = match answers {
        Ok(answers) => answers,
        Err(message) => {
            return job.tally.panicked(&message, bytes.len(), || format!("at {at}: {}", show::hex(bytes)));
        }
    };
    job.desk.hold_bytes(bytes);
    let returned = job.desk.read_uvarint(at);
    compare_read(job, Call::ReadUvarint, bytes, at, returned, unsigned);
    let returned = job.desk.read_varint(at);
    compare_read(job, Call::ReadVarint, bytes, at, returned, signed);
}

fn wanted(bytes: &[u8], at: usize, answer: Result<u64, BasaltError>, next: usize) -> Read {
    match answer {
        Ok(value) => Read { answer: Answer::accepted(next), value, unpadded: is_unpadded(&bytes[at..next]).into() },
        Err(error) => {
            let refused = refusal(refusal::Call::ReadVarint, &error);
            Read { answer: Answer::refused(refused), value: 0, unpadded: 0 }
        }
    }
}

fn compare_read(job: &mut Job, call: Call, bytes: &[u8], at: usize, returned: u64, wanted: Read) {
    let desk = &job.desk;
    let mut verdict = Verdict::of(returned, &desk.place, wanted.answer);
    verdict.left("value", &desk.value, &[wanted.value]);
    verdict.left("unpadded", &desk.unpadded, &[wanted.unpadded]);
    verdict.left("the bytes read", &desk.bytes, bytes);
    job.tally.count(call, verdict, bytes.len(), || {
        let text = |answer: String, value, unpadded| format!("{answer}; value {value}, unpadded {unpadded}");
        let found = show::answer(returned, desk.place.front(1)[0]);
        [
            format!("at {at}"),
            show::hex(bytes),
            text(show::wanted(wanted.answer), wanted.value, wanted.unpadded),
            text(found, desk.value.front(1)[0], desk.unpadded.front(1)[0]),
        ]
    });
}

/// A number written as an unsigned and as a signed varint, to outputs that are long enough, one byte too short, and empty.
pub fn write(job: &mut Job, bits: u64) {
    let answers = ask(|| {
        let (mut unsigned, mut signed) = (Vec::new(), Vec::new());
        varint::write_uvarint(bits, &mut unsigned);
        varint::write_varint(bits as i64, &mut signed);
        [(Call::WriteUvarint, unsigned), (Call::WriteVarint, signed)]
    });
    let answers = match answers {
        Ok(answers) => answers,
        Err(message) => return job.tally.panicked(&message, 1, || bits.to_string()),
    };
    for (call, wanted) in answers {
        let enough = wanted.len() + job.desk.spare();
        compare_written(job, call, bits, enough, Answer::accepted(wanted.len()), &wanted);
        for short in [wanted.len() - 1, 0] {
            compare_written(job, call, bits, short, Answer::added(20, wanted.len()), &[]);
        }
    }
}

fn compare_written(job: &mut Job, call: Call, bits: u64, size: usize, wanted: Answer, front: &[u8]) {
    let returned = match call {
        Call::WriteUvarint => job.desk.write_uvarint(bits, size),
        _ => job.desk.write_varint(bits as i64, size),
    };
    let desk = &job.desk;
    let mut verdict = Verdict::of(returned, &desk.place, wanted);
    verdict.left("out", &desk.out, front);
    job.tally.count(call, verdict, 1, || {
        let place = desk.place.front(1)[0];
        [
            format!("to an output of {size} bytes"),
            format!("{bits} (as signed {})", bits as i64),
            format!("{}: {}", show::wanted(wanted), show::hex(front)),
            format!("{}: {}", show::answer(returned, place), show::hex(desk.out.front(size))),
        ]
    });
}
