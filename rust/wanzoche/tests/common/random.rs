//! Numbers at random.

#![allow(dead_code)]

use std::collections::hash_map::RandomState;
use std::hash::{BuildHasher, Hasher};

pub struct Random {
    /// From which they follow, for who wants them again.
    pub seed: u64,
    state: u64,
}

impl Random {
    pub fn new() -> Random {
        let seed = RandomState::new().build_hasher().finish() | 1;
        Random { seed, state: seed }
    }

    /// A number below this one.
    pub fn below(&mut self, end: u64) -> u64 {
        self.state ^= self.state << 13;
        self.state ^= self.state >> 7;
        self.state ^= self.state << 17;
        self.state % end
    }
}
