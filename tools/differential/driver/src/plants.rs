//! Errors that can be planted between the library and the comparison, which must then find a difference.

use crate::c_api::STATS_WORDS;
use crate::calls::Call;
use crate::desk::Desk;
use crate::lent::{Element, Lent};

pub struct Plant {
    pub name: &'static str,
    pub what: &'static str,
    /// Changes what a call returned, or what it left on the desk.
    pub spoil: fn(&mut Desk, Call, &mut u64),
}

impl Plant {
    pub fn named(name: &str) -> Option<&'static Plant> {
        PLANTS.iter().find(|plant| plant.name == name)
    }
}

const fn plant(name: &'static str, what: &'static str, spoil: fn(&mut Desk, Call, &mut u64)) -> Plant {
    Plant { name, what, spoil }
}

pub const PLANTS: [Plant; 40] = [
    plant("zigzag-of-the-least", "the ZigZag of the least key is one less", |_, call, returned| {
        if call == Call::ZigzagEncode && *returned == u64::MAX {
            *returned -= 1;
        }
    }),
    plant("width-64", "a number of 64 bits has width 63", |_, call, returned| {
        if call == Call::RequiredWidth && *returned == 64 {
            *returned = 63;
        }
    }),
    plant("gain", "the gain of the levels 4 to 6 is 0.01", |_, call, returned| {
        if call == Call::MinimumGain && f64::from_bits(*returned) == 0.05 {
            *returned = 0.01f64.to_bits();
        }
    }),
    plant("tenth-byte", "the top bit of a varint of ten bytes is lost", |desk, call, returned| {
        let value = desk.value.at(0);
        if let (Call::ReadUvarint, 0, Some(value)) = (call, *returned, value) {
            *value &= u64::MAX >> 1;
        }
    }),
    plant("padded-varint", "every varint that is read is said to be unpadded", |desk, call, returned| {
        if reads_varint(call) && *returned == 0 {
            change(&mut desk.unpadded, 0, |_| 1);
        }
    }),
    plant("bool-of-two", "a true bool is stored as 2", |desk, call, _| {
        if reads_varint(call) && desk.unpadded.front(1) == [1] {
            change(&mut desk.unpadded, 0, |_| 2);
        }
    }),
    plant("byte-behind-bool", "the byte behind a bool is cleared", |desk, call, _| {
        if reads_varint(call) {
            change(&mut desk.unpadded, 1, |_| 0);
        }
    }),
    plant("refused-value", "a varint that is refused stores another value than 0", |desk, call, returned| {
        if reads_varint(call) && *returned != 0 {
            change(&mut desk.value, 0, |element| element ^ 1);
        }
    }),
    plant("eleventh-byte", "a varint that is cut is refused with 7", |_, call, returned| {
        if reads_varint(call) && *returned == 6 {
            *returned = 7;
        }
    }),
    plant("word-behind-size", "the word behind a size_t is changed", |desk, _, _| {
        change(&mut desk.place, 1, |element| element ^ 1)
    }),
    plant("packed-length", "a packed length is one less", |desk, call, returned| {
        if call == Call::PackedLen && *returned == 0 && stored(desk) > 1 {
            change(&mut desk.place, 0, |place| place - 1);
        }
    }),
    plant("packed-tail", "the top bit of the last packed byte is set", |desk, call, returned| {
        if call == Call::Pack && *returned == 0 {
            change_last(desk, |desk| &mut desk.out, |byte| byte | 0x80);
        }
    }),
    plant("unpacked-tail", "the last value that is unpacked is another", |desk, call, returned| {
        if call == Call::Unpack && *returned == 0 {
            change_last(desk, |desk| &mut desk.unpacked, |value| value ^ 1);
        }
    }),
    plant("unpacked-though-refused", "a value is stored before 13 is found", |desk, call, returned| {
        if call == Call::Unpack && *returned == 13 && desk.unpacked.len() > MOST_SPARE {
            change(&mut desk.unpacked, 0, |_| 0);
        }
    }),
    plant("unpacked-too-many", "more than 2^24 values are refused with 20", |_, call, returned| {
        if call == Call::Unpack && *returned == 21 {
            *returned = 20;
        }
    }),
    plant("last-byte", "the last byte of a chunk of more than 127 keys is another", |desk, call, returned| {
        if call == Call::EncodeIntegers && *returned == 0 && desk.column.len() > 127 {
            change_last(desk, |desk| &mut desk.out, |byte| byte ^ 1);
        }
    }),
    plant("byte-behind-chunk", "the byte behind a chunk is changed", |desk, call, returned| {
        let end = stored(desk);
        if call == Call::EncodeIntegers && *returned == 0 && end < desk.out.len() as isize {
            change(&mut desk.out, end, |byte| byte ^ 1);
        }
    }),
    plant("byte-behind-output", "the byte behind the output is changed", |desk, call, _| {
        if call == Call::EncodeIntegers {
            let end = desk.out.len() as isize;
            change(&mut desk.out, end, |byte| byte ^ 1);
        }
    }),
    plant("byte-before-output", "the byte before the output is changed", |desk, call, _| {
        if call == Call::EncodeIntegers {
            change(&mut desk.out, -1, |element| element ^ 1);
        }
    }),
    plant("written-though-refused", "a byte is stored to an output that is too short", |desk, call, returned| {
        if call == Call::EncodeIntegers && *returned == 20 && desk.out.len() > 0 {
            change(&mut desk.out, 0, |element| element ^ 1);
        }
    }),
    plant("written-before-2", "a byte is stored before 2 is found", |desk, call, returned| {
        if call == Call::EncodeIntegers && *returned == 2 && desk.out.len() > MOST_SPARE {
            change(&mut desk.out, 0, |element| element ^ 1);
        }
    }),
    plant("length-needed", "the length needed is one less", |desk, call, returned| {
        if call == Call::EncodeIntegers && *returned == 20 {
            change(&mut desk.place, 0, |place| place - 1);
        }
    }),
    plant("column-changed", "writing changes a key of the column", |desk, call, _| {
        if call == Call::EncodeIntegers && desk.column.len() > 0 {
            change(&mut desk.column, 0, |element| element ^ 1);
        }
    }),
    plant("scratch-of-plain", "writing in Plain clears the scratch", |desk, call, _| {
        if call == Call::EncodeIntegers && desk.out.front(1) == [1] && desk.scratch.len() > 0 {
            change(&mut desk.scratch, 0, |_| 0);
        }
    }),
    plant("cut-varint-offset", "the offset of a cut varint in a chunk is one more", |desk, call, returned| {
        if reads_chunk(call) && *returned == 6 {
            change(&mut desk.place, 0, |place| place + 1);
        }
    }),
    plant("packed-cut-offset", "the offset of 13 is counted from the chunk's start", |desk, call, returned| {
        if reads_chunk(call) && *returned == 13 {
            change(&mut desk.place, 0, |_| desk.bytes.len() as u64);
        }
    }),
    plant("other-encoding", "an id that is not the one named is refused with 1", |_, call, returned| {
        if reads_chunk(call) && *returned == 4 {
            *returned = 1;
        }
    }),
    plant("strict-order", "26 is asked before 25", |_, call, returned| {
        if reads_chunk(call) && *returned == 25 {
            *returned = 26;
        }
    }),
    plant("first-byte-over", "the offset of 26 is that of the last byte of the body", |desk, call, returned| {
        if reads_chunk(call) && *returned == 26 {
            change(&mut desk.place, 0, |place| place - 1);
        }
    }),
    plant("last-key", "the last key that is read is the next one", |desk, call, returned| {
        if reads_chunk(call) && *returned == 0 {
            change_last(desk, |desk| &mut desk.keys, |key| key.wrapping_add(1));
        }
    }),
    plant("key-behind-column", "the place behind the keys is changed", |desk, call, returned| {
        if reads_chunk(call) && *returned == 0 {
            let end = stored(desk);
            change(&mut desk.keys, end, |key| key ^ 1);
        }
    }),
    plant("filled-though-refused", "a key is stored before 18 is found", |desk, call, returned| {
        if reads_chunk(call) && *returned == 18 && desk.keys.len() > MOST_SPARE {
            change(&mut desk.keys, 0, |_| 0);
        }
    }),
    plant("swapped-estimates", "the lengths of Plain and Varint are swapped", |desk, call, returned| {
        if call == Call::EstimateSizes && *returned == 0 {
            swap(&mut desk.estimates, 0);
        }
    }),
    plant("density-bit", "the last bit of the run density is another", |desk, call, _| {
        if call == Call::Analyze {
            change(&mut desk.plan, 4, |element| element ^ 1);
        }
    }),
    plant("ratio-bit", "the last bit of the estimated ratio is another", |desk, call, _| {
        if call == Call::Analyze {
            change(&mut desk.plan, 5, |element| element ^ 1);
        }
    }),
    plant("tie", "of two equal lengths the lower id wins", |desk, call, _| {
        let tied = desk.plan.front(9).get(7..9).is_some_and(|lengths| lengths[0] == lengths[1]);
        if call == Call::Analyze && desk.plan.front(1) == [3] && tied {
            change(&mut desk.plan, 0, |_| 2);
        }
    }),
    plant("exact-cardinality", "a cardinality above 16,384 is exact", |desk, call, returned| {
        if call == Call::AnalyzeIntegers && *returned == 0 {
            change(&mut desk.stats, 7, |_| 1);
        }
    }),
    plant("word-behind-stats", "the word behind the statistics is changed", |desk, call, _| {
        if call == Call::AnalyzeIntegers {
            change(&mut desk.stats, STATS_WORDS as isize, |element| element ^ 1);
        }
    }),
    plant("scratch-order", "the last two distinct keys are swapped", |desk, call, returned| {
        let count = stored(desk);
        if call == Call::DistinctValues && *returned == 0 && count > 1 {
            swap(&mut desk.scratch, count - 2);
        }
    }),
    plant("scratch-though-refused", "a key is stored to a scratch that is too short", |desk, call, returned| {
        if call == Call::Analyze && *returned == 22 && desk.scratch.len() > 0 {
            change(&mut desk.scratch, 0, |element| element ^ 1);
        }
    }),
];

/// A buffer that has more places than this was lent for what a call would store, not only to be looked at behind its front.
const MOST_SPARE: usize = 3;

fn reads_varint(call: Call) -> bool {
    matches!(call, Call::ReadUvarint | Call::ReadVarint)
}

fn reads_chunk(call: Call) -> bool {
    matches!(call, Call::DecodeIntegers | Call::DecodeNamed)
}

/// The count or the offset that the call stored.
fn stored(desk: &Desk) -> isize {
    desk.place.front(1).first().map_or(0, |&place| place as isize)
}

fn change<T: Element>(lent: &mut Lent<T>, place: isize, to: impl FnOnce(T) -> T) {
    if let Some(element) = lent.at(place) {
        *element = to(*element);
    }
}

/// Swaps the element at a place with the next one.
fn swap<T: Element>(lent: &mut Lent<T>, place: isize) {
    let (first, second) = (lent.at(place).copied(), lent.at(place + 1).copied());
    if let (Some(first), Some(second)) = (first, second) {
        change(lent, place, |_| second);
        change(lent, place + 1, |_| first);
    }
}

/// Changes the last element that the call stored, if it stored any.
fn change_last<T: Element>(desk: &mut Desk, lent: fn(&mut Desk) -> &mut Lent<T>, to: fn(T) -> T) {
    let count = stored(desk);
    if count > 0 {
        change(lent(desk), count - 1, to);
    }
}
