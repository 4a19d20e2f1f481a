//! Small generators of pseudo-random numbers for tests; not for secrets.

use crate::permutation::{State, ZERO_STATE};

/// SplitMix64: a counter followed by a mixing function.
pub struct SplitMix64 {
    counter: u64,
}

impl SplitMix64 {
    pub fn new(seed: u64) -> Self {
        SplitMix64 { counter: seed }
    }

    pub fn next_word(&mut self) -> u64 {
        self.counter = self.counter.wrapping_add(0x9E3779B97F4A7C15);
        let mut v = self.counter;
        v = (v ^ (v >> 30)).wrapping_mul(0xBF58476D1CE4E5B9);
        v = (v ^ (v >> 27)).wrapping_mul(0x94D049BB133111EB);
        v ^ (v >> 31)
    }

    /// A number below `limit`, which is not 0; small limits come out nearly even.
    pub fn below(&mut self, limit: usize) -> usize {
        (self.next_word() % limit as u64) as usize
    }

    pub fn next_bytes(&mut self, count: usize) -> Vec<u8> {
        let mut bytes = Vec::with_capacity(count + 7);
        while bytes.len() < count {
            bytes.extend(self.next_word().to_le_bytes());
        }
        bytes.truncate(count);
        bytes
    }

    pub fn next_state(&mut self) -> State {
        let mut state = ZERO_STATE;
        for column in &mut state {
            for word in column {
                *word = self.next_word();
            }
        }
        state
    }
}

/// xorshift64 with the shifts 13, 7, 17; the seed is not 0.
pub struct XorShift64 {
    value: u64,
}

impl XorShift64 {
    pub fn new(seed: u64) -> Self {
        XorShift64 { value: seed }
    }

    /// One step; the output is the value after the step.
    pub fn next_word(&mut self) -> u64 {
        self.value ^= self.value << 13;
        self.value ^= self.value >> 7;
        self.value ^= self.value << 17;
        self.value
    }
}
