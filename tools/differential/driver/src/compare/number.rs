//! Single numbers: ZigZag, widths, the lengths of varints; the gain of a level.

use crate::answer::Verdict;
use crate::calls::Call;
use crate::job::Job;
use crate::original::ask;
use basalt_common::CompressionLevel;
use basalt_encoding::{bitpack, varint};

/// Every function of one number, which is read as unsigned and as signed.
pub fn number(job: &mut Job, bits: u64) {
    let signed = bits as i64;
    let answers = ask(|| {
        [
            varint::zigzag_encode(signed),
            varint::zigzag_decode(bits) as u64,
            bitpack::required_width(bits).into(),
            varint::uvarint_len(bits) as u64,
            varint::varint_len(signed) as u64,
        ]
    });
    let wanted = match answers {
        Ok(wanted) => wanted,
        Err(message) => return job.tally.panicked(&message, 1, || bits.to_string()),
    };
    let found = [
        (Call::ZigzagEncode, job.desk.zigzag_encode(signed)),
        (Call::ZigzagDecode, job.desk.zigzag_decode(bits) as u64),
        (Call::RequiredWidth, job.desk.required_width(bits)),
        (Call::UvarintLen, job.desk.uvarint_len(bits)),
        (Call::VarintLen, job.desk.varint_len(signed)),
    ];
    for ((call, found), wanted) in found.into_iter().zip(wanted) {
        compare(job, call, bits, found, wanted);
    }
}

/// The gain of a level, by its bits. Above 9, where the original has no level, it is as at 9.
pub fn minimum_gain(job: &mut Job, level: u32) {
    let known = CompressionLevel::new(level.min(9) as u8).expect("a level");
    match ask(|| known.minimum_gain()) {
        Ok(wanted) => {
            let found = job.desk.minimum_gain(level);
            compare(job, Call::MinimumGain, level.into(), found.to_bits(), wanted.to_bits());
        }
        Err(message) => job.tally.panicked(&message, 1, || format!("level {level}")),
    }
}

fn compare(job: &mut Job, call: Call, argument: u64, found: u64, wanted: u64) {
    let mut verdict = Verdict::default();
    verdict.same("the result", found, wanted);
    job.tally.count(call, verdict, 1, || {
        let text = |bits: u64| format!("{bits} (as signed {}, in hex {bits:016x})", bits as i64);
        [String::new(), text(argument), text(wanted), text(found)]
    });
}
