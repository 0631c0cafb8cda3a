//! Seeded numbers (splitmix64), so that a difference can be met again.

use crate::field::P;
use crate::files::{is_taken, mark, readings};

/// At the limits of either version and past them, both marks, and where 32 bits and P end.
pub const EDGE_READINGS: [i32; 14] = [
    -32_767,
    32_767,
    -32_768,
    -32_769,
    32_768,
    40_000,
    -1_000_000,
    1_000_000,
    -1_000_001,
    1_000_001,
    i32::MIN,
    i32::MIN + 1,
    i32::MAX,
    i32::MAX - 1,
];

pub struct Random(u64);

impl Random {
    pub fn new(seed: u64) -> Random {
        Random(seed)
    }

    fn next(&mut self) -> u64 {
        self.0 = self.0.wrapping_add(0x9E37_79B9_7F4A_7C15);
        let mut z = self.0;
        z = (z ^ z >> 30).wrapping_mul(0xBF58_476D_1CE4_E5B9);
        z = (z ^ z >> 27).wrapping_mul(0x94D0_49BB_1331_11EB);
        z ^ z >> 31
    }

    /// 0 to bound - 1.
    pub fn below(&mut self, bound: u64) -> u64 {
        self.next() % bound
    }

    pub fn between(&mut self, low: u64, high: u64) -> u64 {
        low + self.below(high - low + 1)
    }

    pub fn chance(&mut self, permille: u64) -> bool {
        self.below(1_000) < permille
    }

    pub fn pick<T: Copy>(&mut self, choices: &[T]) -> T {
        choices[self.below(choices.len() as u64) as usize]
    }

    /// 0 to P-1, both ends more often than by chance.
    pub fn field(&mut self) -> u64 {
        match self.below(12) {
            0 => self.pick(&[0, 1, P - 1]),
            _ => self.below(P),
        }
    }

    /// 1 to P-1.
    pub fn usable(&mut self) -> u64 {
        match self.below(12) {
            0 => self.pick(&[1, 2, P - 1]),
            _ => self.between(1, P - 1),
        }
    }

    /// Any 32-bit number, with those at a limit as often as the rest.
    pub fn any(&mut self) -> u64 {
        match self.below(4) {
            0 => self.pick(&[0, 1, P - 1, P, P + 1, u32::MAX as u64]),
            1 => self.below(1 << 32),
            _ => self.below(P),
        }
    }

    pub fn version(&mut self) -> u64 {
        self.pick(&[1, 2])
    }

    /// One that is neither.
    pub fn other_version(&mut self) -> u64 {
        self.pick(&[0, 3, 258, 65_537, 65_538, u32::MAX as u64])
    }

    /// In the version's range, or its mark.
    pub fn reading(&mut self, version: u64) -> i32 {
        let (low, high) = (*readings(version).start(), *readings(version).end());
        match self.below(12) {
            0 => mark(version),
            1..=2 => self.edge_reading(|reading| readings(version).contains(reading)),
            3..=4 => self.pick(&[-1, 0, 1, low, high]),
            5..=6 => self.between(0, 400) as i32 - 300,
            _ => low + self.below((high - low) as u64 + 1) as i32,
        }
    }

    /// Out of the version's range, and not its mark.
    pub fn reading_outside(&mut self, version: u64) -> i32 {
        self.edge_reading(|&reading| !is_taken(version, reading))
    }

    fn edge_reading(&mut self, wanted: impl Fn(&i32) -> bool) -> i32 {
        let edges: Vec<i32> = EDGE_READINGS.into_iter().filter(wanted).collect();
        self.pick(&edges)
    }

    /// Mostly one with which about as many items reach the total's limits in either version.
    pub fn weight(&mut self, version: u64) -> u16 {
        match self.below(6) {
            0 => self.pick(&[0, 1, usual_weight(version)]),
            1 if self.chance(100) => 1_440,
            _ => self.below(usual_weight(version) as u64 + 1) as u16,
        }
    }

    pub fn weight_over(&mut self) -> u16 {
        self.pick(&[1_441, 1_442, 32_768, 65_535])
    }
}

/// With the widest reading, 22 items of this weight stay within the total's limits and 23 do not.
pub fn usual_weight(version: u64) -> u16 {
    match version {
        2 => 47,
        _ => 1_440,
    }
}
