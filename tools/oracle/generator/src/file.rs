//! The form of an answer file: header lines, then records.

use std::collections::BTreeMap;

/// No record is longer, its kind and length included, so that a reader gets by with a buffer of 64 KiB.
const LONGEST_RECORD: usize = 60_000;

/// No header is longer, for the same reason.
const LONGEST_HEADER: usize = 4_096;

/// A record under construction: every number little-endian, of fixed size.
pub struct Record {
    kind: u8,
    payload: Vec<u8>,
}

impl Record {
    pub fn new(kind: u8) -> Self {
        Record { kind, payload: Vec::new() }
    }

    pub fn u8(&mut self, value: u8) {
        self.payload.push(value);
    }

    pub fn u16(&mut self, value: usize) {
        let value = u16::try_from(value).expect("a number for 16 bits");
        self.payload.extend(value.to_le_bytes());
    }

    pub fn u32(&mut self, value: usize) {
        let value = u32::try_from(value).expect("a number for 32 bits");
        self.payload.extend(value.to_le_bytes());
    }

    pub fn u64(&mut self, value: u64) {
        self.payload.extend(value.to_le_bytes());
    }

    pub fn i64(&mut self, value: i64) {
        self.payload.extend(value.to_le_bytes());
    }

    pub fn bytes(&mut self, bytes: &[u8]) {
        self.payload.extend(bytes);
    }

    pub fn keys(&mut self, keys: &[i64]) {
        keys.iter().for_each(|&key| self.i64(key));
    }

    pub fn words(&mut self, words: &[u64]) {
        words.iter().for_each(|&word| self.u64(word));
    }
}

/// An answer file under construction.
pub struct AnswerFile {
    title: &'static str,
    seed: u64,
    kinds: &'static [(u8, &'static str)],
    notes: Vec<String>,
    counts: BTreeMap<u8, usize>,
    records: Vec<u8>,
}

impl AnswerFile {
    pub fn new(title: &'static str, seed: u64, kinds: &'static [(u8, &'static str)]) -> Self {
        AnswerFile { title, seed, kinds, notes: Vec::new(), counts: BTreeMap::new(), records: Vec::new() }
    }

    pub fn push(&mut self, record: Record) {
        let length = u32::try_from(record.payload.len()).expect("a record of ordinary length");
        let kind = record.kind;
        assert!(self.kinds.iter().any(|&(known, _)| known == kind), "kind {kind} has no name in {}", self.title);
        *self.counts.entry(kind).or_default() += 1;
        let start = self.records.len();
        self.records.push(kind);
        self.records.extend(length.to_le_bytes());
        self.records.extend(record.payload);
        assert!(self.records.len() - start <= LONGEST_RECORD);
    }

    /// A line of the header about this file's contents.
    pub fn note(&mut self, line: String) {
        self.notes.push(line);
    }

    pub fn finish(self, sources: &str) -> Vec<u8> {
        let mut header = format!(
            "# Warpboulder, stored answers of the original Rust: {}\n\
             # layout: docs/ORACLE.md\n\
             # made by: tools/oracle/answers\n\
             # seed: {:#018x}\n\
             # sources: sha256 {sources}\n",
            self.title, self.seed
        );
        for (kind, name) in self.kinds {
            let count = self.counts.get(kind).copied().unwrap_or(0);
            header += &format!("# records of kind {kind} ({name}): {count}\n");
        }
        let all: usize = self.counts.values().sum();
        header += &format!("# records: {all}\n");
        for note in &self.notes {
            header += &format!("# {note}\n");
        }
        header += "#end\n";
        assert!(header.len() <= LONGEST_HEADER);
        let mut bytes = header.into_bytes();
        bytes.extend(self.records);
        bytes
    }
}
