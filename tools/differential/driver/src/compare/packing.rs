//! Packing and unpacking alone, and packed lengths.

use crate::answer::{Answer, Verdict};
use crate::calls::Call;
use crate::job::Job;
use crate::original::ask;
use crate::refusal::{self, refusal};
use crate::show;
use basalt_encoding::{bitpack, MAX_CHUNK_ELEMENTS};

/// A packed length. The original tests neither count nor width: "packed length alone: 21, 12".
pub fn length(job: &mut Job, count: usize, width: u32) {
    let wanted = match (count, width) {
        (count, _) if count > MAX_CHUNK_ELEMENTS => Answer::added(21, 0),
        (_, width) if width > 64 => Answer::added(12, 0),
        _ => match ask(|| bitpack::packed_len(count, width)) {
            Ok(length) => Answer::accepted(length),
            Err(message) => {
                return job.tally.panicked(&message, 1, || format!("{count} values of {width} bits"));
            }
        },
    };
    let returned = job.desk.packed_len(count, width);
    let place = &job.desk.place;
    let verdict = Verdict::of(returned, place, wanted);
    job.tally.count(Call::PackedLen, verdict, 1, || {
        let found = show::answer(returned, place.front(1)[0]);
        [String::new(), format!("{count} values of {width} bits"), show::wanted(wanted), found]
    });
}

/// Packing to outputs that are long enough, one byte too short, and empty.
pub fn pack(job: &mut Job, values: &[u64], width: u32) {
    let answer = ask(|| {
        let mut packed = Vec::new();
        bitpack::pack(values, width, &mut packed).map_err(|error| refusal(refusal::Call::Pack, &error))?;
        Ok(packed)
    });
    job.desk.hold_values(values);
    match answer {
        Ok(Ok(packed)) => {
            let length = packed.len();
            let size = length + job.desk.spare();
            compare_packed(job, values, width, size, Answer::accepted(length), &packed);
            for short in [length.saturating_sub(1), 0].into_iter().filter(|&short| short < length) {
                compare_packed(job, values, width, short, Answer::added(20, length), &[]);
            }
        }
        Ok(Err(refused)) => {
            let size = job.desk.refused_room(size_of_val(values));
            compare_packed(job, values, width, size, Answer::refused(refused), &[]);
        }
        Err(message) => {
            job.tally.panicked(&message, values.len(), || format!("width {width}: {}", show::keys(values)));
        }
    }
}

/// More values than 2^24, which the original packs: 21, before 12.
pub fn pack_too_many(job: &mut Job, values: &[u64], width: u32) {
    job.desk.hold_values(values);
    let size = job.desk.refused_room(size_of_val(values));
    compare_packed(job, values, width, size, Answer::added(21, 0), &[]);
}

fn compare_packed(job: &mut Job, values: &[u64], width: u32, size: usize, wanted: Answer, front: &[u8]) {
    let returned = job.desk.pack(width, size);
    let desk = &job.desk;
    let mut verdict = Verdict::of(returned, &desk.place, wanted);
    verdict.left("out", &desk.out, front);
    verdict.left("values", &desk.values, values);
    job.tally.count(Call::Pack, verdict, values.len(), || {
        [
            format!("at width {width}, to an output of {size} bytes"),
            show::keys(values),
            format!("{}: {}", show::wanted(wanted), show::hex(front)),
            format!("{}: {}", show::answer(returned, desk.place.front(1)[0]), show::hex(desk.out.front(size))),
        ]
    });
}

/// Unpacking to buffers that are long enough and one value too short. Above 2^24 values document 01 answers 21.
pub fn unpack(job: &mut Job, bytes: &[u8], width: u32, count: usize) {
    job.desk.hold_bytes(bytes);
    if count > MAX_CHUNK_ELEMENTS {
        let room = job.desk.refused_room(count);
        return compare_unpacked(job, bytes, (width, count), room, Answer::added(21, 0), &[]);
    }
    let answer = ask(|| bitpack::unpack(bytes, width, count).map_err(|error| refusal(refusal::Call::Unpack, &error)));
    match answer {
        Ok(Ok(values)) => {
            let room = count + job.desk.spare();
            compare_unpacked(job, bytes, (width, count), room, Answer::accepted(count), &values);
            if count > 0 {
                compare_unpacked(job, bytes, (width, count), count - 1, Answer::added(20, count), &[]);
            }
        }
        Ok(Err(refused)) => {
            let room = job.desk.refused_room(count);
            compare_unpacked(job, bytes, (width, count), room, Answer::refused(refused), &[]);
        }
        Err(message) => {
            let input = || format!("{count} values of {width} bits: {}", show::hex(bytes));
            job.tally.panicked(&message, bytes.len(), input);
        }
    }
}

fn compare_unpacked(
    job: &mut Job,
    bytes: &[u8],
    (width, count): (u32, usize),
    room: usize,
    wanted: Answer,
    front: &[u64],
) {
    let returned = job.desk.unpack(width, count, room);
    let desk = &job.desk;
    let mut verdict = Verdict::of(returned, &desk.place, wanted);
    verdict.left("out", &desk.unpacked, front);
    verdict.left("the bytes read", &desk.bytes, bytes);
    job.tally.count(Call::Unpack, verdict, bytes.len(), || {
        let found = show::answer(returned, desk.place.front(1)[0]);
        [
            format!("{count} values of {width} bits, to a buffer of {room} places"),
            show::hex(bytes),
            format!("{}: {}", show::wanted(wanted), show::keys(front)),
            format!("{found}: {}", show::keys(desk.unpacked.front(room))),
        ]
    });
}
