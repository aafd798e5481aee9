//! The calls of the library. The desk holds every buffer that a call is lent; a call fills those that it writes with old contents
//! first, and what it left in them is looked at afterwards. This layer is where a planted error comes in.

use crate::c_api::*;
use crate::calls::Call;
use crate::lent::Lent;
use crate::numbers::Source;
use crate::plants::Plant;

/// A claimed count may be far above what there is memory for.
const MOST_FOR_REFUSED: usize = 4096;

pub struct Desk {
    /// What is read: a chunk, packed bytes or varints; keys; values to pack.
    pub bytes: Lent<u8>,
    pub column: Lent<i64>,
    pub values: Lent<u64>,
    /// What is written.
    pub out: Lent<u8>,
    pub keys: Lent<i64>,
    pub unpacked: Lent<u64>,
    pub scratch: Lent<i64>,
    pub stats: Lent<u64>,
    pub estimates: Lent<u64>,
    pub plan: Lent<u64>,
    pub value: Lent<u64>,
    pub unpadded: Lent<u8>,
    /// The `size_t` that every call which can refuse stores to.
    pub place: Lent<u64>,
    vary: Source,
    plant: Option<&'static Plant>,
}

impl Desk {
    pub fn new(exact: bool, plant: Option<&'static Plant>) -> Desk {
        Desk {
            bytes: Lent::new(exact),
            column: Lent::new(exact),
            values: Lent::new(exact),
            out: Lent::new(exact),
            keys: Lent::new(exact),
            unpacked: Lent::new(exact),
            scratch: Lent::new(exact),
            stats: Lent::new(exact),
            estimates: Lent::new(exact),
            plan: Lent::new(exact),
            value: Lent::new(exact),
            unpadded: Lent::new(exact),
            place: Lent::new(exact),
            vary: Source::new(0),
            plant,
        }
    }

    /// From here on buffers are placed as after every other call of this with the same seed.
    pub fn restart(&mut self, seed: u64) {
        self.vary = Source::new(seed);
    }

    /// How many places more than needed a buffer gets: none as often as one, two or three.
    pub fn spare(&mut self) -> usize {
        self.vary.below(4) as usize
    }

    /// How many places a call gets that is to be refused: in some cases those that it would need if it were accepted, so that what is
    /// stored before the refusal is found is seen. Many places are lent more rarely, since every one is compared afterwards.
    pub fn refused_room(&mut self, needed: usize) -> usize {
        let needed = needed.min(MOST_FOR_REFUSED);
        let one_in = if needed <= 64 { 2 } else { 32 };
        let lent = if self.vary.below(one_in) == 0 { needed } else { 0 };
        lent + self.spare()
    }

    /// One of several.
    pub fn one_of<T: Copy>(&mut self, several: &[T]) -> T {
        several[self.vary.below(several.len() as u64) as usize]
    }

    pub fn hold_bytes(&mut self, bytes: &[u8]) {
        self.bytes.hold(bytes, &mut self.vary);
    }

    pub fn hold_column(&mut self, column: &[i64]) {
        self.column.hold(column, &mut self.vary);
    }

    pub fn hold_values(&mut self, values: &[u64]) {
        self.values.hold(values, &mut self.vary);
    }

    pub fn zigzag_encode(&mut self, value: i64) -> u64 {
        let returned = unsafe { wb_zigzag_encode(value) };
        self.after(Call::ZigzagEncode, returned)
    }

    pub fn zigzag_decode(&mut self, value: u64) -> i64 {
        let returned = unsafe { wb_zigzag_decode(value) };
        self.after(Call::ZigzagDecode, returned as u64) as i64
    }

    pub fn required_width(&mut self, max: u64) -> u64 {
        let returned = unsafe { wb_required_width(max) };
        self.after(Call::RequiredWidth, returned.into())
    }

    pub fn uvarint_len(&mut self, value: u64) -> u64 {
        let returned = unsafe { wb_uvarint_len(value) };
        self.after(Call::UvarintLen, returned as u64)
    }

    pub fn varint_len(&mut self, value: i64) -> u64 {
        let returned = unsafe { wb_varint_len(value) };
        self.after(Call::VarintLen, returned as u64)
    }

    pub fn minimum_gain(&mut self, level: u32) -> f64 {
        let returned = unsafe { wb_minimum_gain(level) };
        f64::from_bits(self.after(Call::MinimumGain, returned.to_bits()))
    }

    /// Reads from the bytes that are held.
    pub fn read_uvarint(&mut self, at: usize) -> u64 {
        self.lend_varint();
        let (bytes, size) = (self.bytes.as_ptr(), self.bytes.len());
        let (value, unpadded) = (self.value.as_mut_ptr(), self.unpadded.as_mut_ptr());
        let returned = unsafe { wb_read_uvarint(bytes, size, at, value, unpadded, self.place.as_mut_ptr()) };
        self.after(Call::ReadUvarint, returned.into())
    }

    pub fn read_varint(&mut self, at: usize) -> u64 {
        self.lend_varint();
        let (bytes, size) = (self.bytes.as_ptr(), self.bytes.len());
        let (value, unpadded) = (self.value.as_mut_ptr(), self.unpadded.as_mut_ptr());
        let returned = unsafe { wb_read_varint(bytes, size, at, value, unpadded, self.place.as_mut_ptr()) };
        self.after(Call::ReadVarint, returned.into())
    }

    fn lend_varint(&mut self) {
        self.value.lend(1, &mut self.vary);
        self.unpadded.lend(1, &mut self.vary);
        self.place.lend(1, &mut self.vary);
    }

    pub fn write_uvarint(&mut self, value: u64, size: usize) -> u64 {
        self.lend_out(size);
        let out = self.out.as_mut_ptr();
        let returned = unsafe { wb_write_uvarint(value, out, size, self.place.as_mut_ptr()) };
        self.after(Call::WriteUvarint, returned.into())
    }

    pub fn write_varint(&mut self, value: i64, size: usize) -> u64 {
        self.lend_out(size);
        let out = self.out.as_mut_ptr();
        let returned = unsafe { wb_write_varint(value, out, size, self.place.as_mut_ptr()) };
        self.after(Call::WriteVarint, returned.into())
    }

    fn lend_out(&mut self, size: usize) {
        self.out.lend(size, &mut self.vary);
        self.place.lend(1, &mut self.vary);
    }

    pub fn packed_len(&mut self, count: usize, width: u32) -> u64 {
        self.place.lend(1, &mut self.vary);
        let returned = unsafe { wb_packed_len(count, width, self.place.as_mut_ptr()) };
        self.after(Call::PackedLen, returned.into())
    }

    /// Packs the values that are held.
    pub fn pack(&mut self, width: u32, size: usize) -> u64 {
        self.lend_out(size);
        let (values, count) = (self.values.as_ptr(), self.values.len());
        let out = self.out.as_mut_ptr();
        let returned = unsafe { wb_pack(values, count, width, out, size, self.place.as_mut_ptr()) };
        self.after(Call::Pack, returned.into())
    }

    /// Unpacks the bytes that are held.
    pub fn unpack(&mut self, width: u32, count: usize, room: usize) -> u64 {
        self.unpacked.lend(room, &mut self.vary);
        self.place.lend(1, &mut self.vary);
        let (bytes, size) = (self.bytes.as_ptr(), self.bytes.len());
        let out = self.unpacked.as_mut_ptr();
        let returned = unsafe { wb_unpack(bytes, size, width, count, out, room, self.place.as_mut_ptr()) };
        self.after(Call::Unpack, returned.into())
    }

    /// Writes the column that is held.
    pub fn encode_integers(&mut self, encoding: u32, places: usize, size: usize) -> u64 {
        self.scratch.lend(places, &mut self.vary);
        self.lend_out(size);
        let (column, count) = (self.column.as_ptr(), self.column.len());
        let (scratch, out) = (self.scratch.as_mut_ptr(), self.out.as_mut_ptr());
        let place = self.place.as_mut_ptr();
        let returned = unsafe { wb_encode_integers(column, count, encoding, scratch, places, out, size, place) };
        self.after(Call::EncodeIntegers, returned.into())
    }

    /// Reads the bytes that are held.
    pub fn decode_integers(&mut self, strict: bool, room: usize) -> u64 {
        self.lend_keys(room);
        let (chunk, size) = (self.bytes.as_ptr(), self.bytes.len());
        let keys = self.keys.as_mut_ptr();
        let returned = unsafe { wb_decode_integers(chunk, size, strict, keys, room, self.place.as_mut_ptr()) };
        self.after(Call::DecodeIntegers, returned.into())
    }

    pub fn decode_named(&mut self, name: u32, strict: bool, room: usize) -> u64 {
        self.lend_keys(room);
        let (chunk, size) = (self.bytes.as_ptr(), self.bytes.len());
        let keys = self.keys.as_mut_ptr();
        let returned = unsafe { wb_decode_named(chunk, size, name, strict, keys, room, self.place.as_mut_ptr()) };
        self.after(Call::DecodeNamed, returned.into())
    }

    fn lend_keys(&mut self, room: usize) {
        self.keys.lend(room, &mut self.vary);
        self.place.lend(1, &mut self.vary);
    }

    /// Analyses the column that is held, as the three calls below do.
    pub fn analyze_integers(&mut self, places: usize) -> u64 {
        self.lend_analysis(places);
        let (column, count) = (self.column.as_ptr(), self.column.len());
        let (scratch, stats) = (self.scratch.as_mut_ptr(), self.stats.as_mut_ptr());
        let place = self.place.as_mut_ptr();
        let returned = unsafe { wb_analyze_integers(column, count, scratch, places, stats, place) };
        self.after(Call::AnalyzeIntegers, returned.into())
    }

    pub fn distinct_values(&mut self, places: usize) -> u64 {
        self.lend_analysis(places);
        let (column, count) = (self.column.as_ptr(), self.column.len());
        let scratch = self.scratch.as_mut_ptr();
        let returned = unsafe { wb_distinct_values(column, count, scratch, places, self.place.as_mut_ptr()) };
        self.after(Call::DistinctValues, returned.into())
    }

    pub fn estimate_sizes(&mut self, places: usize) -> u64 {
        self.lend_analysis(places);
        let (column, count) = (self.column.as_ptr(), self.column.len());
        let (scratch, stats) = (self.scratch.as_mut_ptr(), self.stats.as_mut_ptr());
        let (estimates, place) = (self.estimates.as_mut_ptr(), self.place.as_mut_ptr());
        let returned = unsafe { wb_estimate_sizes(column, count, scratch, places, stats, estimates, place) };
        self.after(Call::EstimateSizes, returned.into())
    }

    pub fn analyze(&mut self, level: u32, places: usize) -> u64 {
        self.lend_analysis(places);
        let (column, count) = (self.column.as_ptr(), self.column.len());
        let (scratch, plan) = (self.scratch.as_mut_ptr(), self.plan.as_mut_ptr());
        let place = self.place.as_mut_ptr();
        let returned = unsafe { wb_analyze(column, count, level, scratch, places, plan, place) };
        self.after(Call::Analyze, returned.into())
    }

    fn lend_analysis(&mut self, places: usize) {
        self.scratch.lend(places, &mut self.vary);
        self.stats.lend(STATS_WORDS, &mut self.vary);
        self.estimates.lend(ESTIMATES_WORDS, &mut self.vary);
        self.plan.lend(PLAN_WORDS, &mut self.vary);
        self.place.lend(1, &mut self.vary);
    }

    /// What a call returned, or what it would return with the planted error.
    fn after(&mut self, call: Call, mut returned: u64) -> u64 {
        if let Some(plant) = self.plant {
            (plant.spoil)(self, call, &mut returned);
        }
        returned
    }
}
