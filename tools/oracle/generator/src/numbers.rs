//! The arithmetic that a reader of the stored answers has to repeat: a checksum and a sequence of numbers.
//! And the generator's own source of varied numbers, which no reader needs.

/// FNV-1a with 64 bits, of bytes.
pub fn checksum(bytes: impl IntoIterator<Item = u8>) -> u64 {
    bytes
        .into_iter()
        .fold(0xcbf2_9ce4_8422_2325, |sum, byte| (sum ^ u64::from(byte)).wrapping_mul(0x0000_0100_0000_01b3))
}

/// The checksum of the 8-byte little-endian words of keys.
pub fn checksum_keys(keys: &[i64]) -> u64 {
    checksum(keys.iter().flat_map(|key| key.to_le_bytes()))
}

/// The checksum of the 8-byte little-endian words of numbers.
pub fn checksum_words(words: &[u64]) -> u64 {
    checksum(words.iter().flat_map(|word| word.to_le_bytes()))
}

/// The state that follows `state` in the sequence by which the files describe long lists.
pub fn next_state(state: u64) -> u64 {
    state.wrapping_mul(6_364_136_223_846_793_005).wrapping_add(1_442_695_040_888_963_407)
}

/// SplitMix64 from a fixed seed.
pub struct Source(u64);

impl Source {
    pub fn new(seed: u64) -> Self {
        Source(seed)
    }

    pub fn word(&mut self) -> u64 {
        self.0 = self.0.wrapping_add(0x9e37_79b9_7f4a_7c15);
        let mut z = self.0;
        z = (z ^ (z >> 30)).wrapping_mul(0xbf58_476d_1ce4_e5b9);
        z = (z ^ (z >> 27)).wrapping_mul(0x94d0_49bb_1331_11eb);
        z ^ (z >> 31)
    }

    /// A number below `bound`.
    pub fn below(&mut self, bound: u64) -> u64 {
        self.word() % bound
    }

    /// A number of any width, each width about as often as the others.
    pub fn any_width(&mut self) -> u64 {
        let drop = self.below(65);
        self.word().checked_shr(drop as u32).unwrap_or(0)
    }

    pub fn byte(&mut self) -> u8 {
        self.word() as u8
    }

    pub fn bytes(&mut self, length: usize) -> Vec<u8> {
        (0..length).map(|_| self.byte()).collect()
    }
}
