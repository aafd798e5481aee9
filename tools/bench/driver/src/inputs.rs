//! The values that both sides are given: random, from a fixed seed, so that each run has the same.

/// SplitMix64.
pub struct Random(u64);

impl Random {
    pub fn new() -> Random {
        Random(0x5761_7270_626f_756c)
    }

    pub fn next(&mut self) -> u64 {
        self.0 = self.0.wrapping_add(0x9e37_79b9_7f4a_7c15);
        let mut mixed = self.0;
        mixed = (mixed ^ (mixed >> 30)).wrapping_mul(0xbf58_476d_1ce4_e5b9);
        mixed = (mixed ^ (mixed >> 27)).wrapping_mul(0x94d0_49bb_1331_11eb);
        mixed ^ (mixed >> 31)
    }

    /// A number of at most this many bits.
    pub fn of_width(&mut self, width: u32) -> u64 {
        self.next().checked_shr(64 - width).unwrap_or(0)
    }

    /// A number from 0 on, below the bound.
    pub fn below(&mut self, bound: u64) -> i64 {
        (self.next() % bound) as i64
    }

    /// A number whose varint has this many bytes, 1 to 10.
    fn of_length(&mut self, length: u32) -> u64 {
        let high = (length - 1) * 7;
        let bits = (high + 7).min(64) - high;
        let top = if high == 0 { self.of_width(7) } else { 1 + self.next() % ((1 << bits) - 1) };
        (top << high) | self.of_width(high)
    }
}

/// Values of at most this many bits.
pub fn of_width(width: u32, count: usize) -> Vec<u64> {
    let mut random = Random::new();
    (0..count).map(|_| random.of_width(width)).collect()
}

/// How the lengths of varints are mixed.
#[derive(Clone, Copy)]
pub enum Mix {
    /// Each length from the first to the last as often as any other.
    Lengths(u32, u32),
    /// One byte, but two in one of 16.
    MostlyOne,
}

pub const MIXES: [Mix; 5] =
    [Mix::Lengths(1, 10), Mix::MostlyOne, Mix::Lengths(1, 1), Mix::Lengths(1, 2), Mix::Lengths(10, 10)];

impl Mix {
    pub fn name(self) -> String {
        match self {
            Mix::Lengths(1, 1) => "1 byte each".to_string(),
            Mix::Lengths(first, last) if first == last => format!("{first} bytes each"),
            Mix::Lengths(first, last) => format!("{first} to {last} bytes"),
            Mix::MostlyOne => "1 byte, 2 in one of 16".to_string(),
        }
    }

    pub fn values(self, count: usize) -> Vec<u64> {
        let mut random = Random::new();
        (0..count)
            .map(|_| {
                let length = match self {
                    Mix::Lengths(first, last) => first + (random.next() % u64::from(last - first + 1)) as u32,
                    Mix::MostlyOne => 1 + u32::from(random.below(16) == 0),
                };
                random.of_length(length)
            })
            .collect()
    }
}
