//! The files of stored answers: header lines, then records of fields with fixed sizes.

use std::fs;
use std::path::Path;

/// Calls `check` with kind and fields of each record, in order. Each must be read to its end, and the number of records
/// must be the one that the header tells.
pub fn each_record(name: &str, mut check: impl FnMut(u8, &mut Fields)) {
    let path = Path::new(env!("CARGO_MANIFEST_DIR")).join("../../crates/replay/data").join(name);
    let bytes = fs::read(&path).unwrap_or_else(|error| panic!("{}: {error}", path.display()));
    let end = b"#end\n";
    let header = bytes.windows(end.len()).position(|window| window == end).expect("the header ends");
    let mut rest = Fields { bytes: &bytes[header + end.len()..] };
    let mut records = 0;
    while !rest.is_empty() {
        let kind = rest.u8();
        let length = rest.u32();
        let mut fields = rest.part(length as usize);
        check(kind, &mut fields);
        assert!(fields.is_empty(), "record {records} of kind {kind} has bytes left");
        records += 1;
    }
    let header = String::from_utf8_lossy(&bytes[..header]);
    assert!(
        header.contains(&format!("# records: {records}\n")),
        "{name}: {records} records, and the header tells another number"
    );
}

/// The fields of a record that are still to be read.
pub struct Fields<'a> {
    bytes: &'a [u8],
}

impl<'a> Fields<'a> {
    pub fn take(&mut self, length: usize) -> &'a [u8] {
        let (front, rest) = self.bytes.split_at(length);
        self.bytes = rest;
        front
    }

    /// The next fields, to be read later.
    pub fn part(&mut self, length: usize) -> Fields<'a> {
        Fields { bytes: self.take(length) }
    }

    pub fn is_empty(&self) -> bool {
        self.bytes.is_empty()
    }

    fn array<const N: usize>(&mut self) -> [u8; N] {
        self.take(N).try_into().unwrap()
    }

    pub fn u8(&mut self) -> u8 {
        self.array::<1>()[0]
    }

    pub fn u16(&mut self) -> u16 {
        u16::from_le_bytes(self.array())
    }

    pub fn u32(&mut self) -> u32 {
        u32::from_le_bytes(self.array())
    }

    pub fn u64(&mut self) -> u64 {
        u64::from_le_bytes(self.array())
    }

    pub fn i64(&mut self) -> i64 {
        i64::from_le_bytes(self.array())
    }

    pub fn numbers(&mut self, count: usize) -> Vec<u64> {
        (0..count).map(|_| self.u64()).collect()
    }

    pub fn keys(&mut self, count: usize) -> Vec<i64> {
        (0..count).map(|_| self.i64()).collect()
    }
}

/// FNV-1a with 64 bits.
pub fn checksum(bytes: impl IntoIterator<Item = u8>) -> u64 {
    bytes.into_iter().fold(0xcbf2_9ce4_8422_2325, |sum, byte| (sum ^ u64::from(byte)).wrapping_mul(0x100_0000_01b3))
}

/// The checksum of keys: that of their little-endian words.
pub fn checksum_of_keys(keys: &[i64]) -> u64 {
    checksum(keys.iter().flat_map(|key| key.to_le_bytes()))
}

/// The states that follow a seed.
pub fn states(seed: u64) -> impl Iterator<Item = u64> {
    let next = |state: u64| state.wrapping_mul(6_364_136_223_846_793_005).wrapping_add(1_442_695_040_888_963_407);
    std::iter::successors(Some(next(seed)), move |&state| Some(next(state)))
}
