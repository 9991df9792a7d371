//! A small generator of random numbers, repeatable from its seed.

use std::io::Write;

/// The seed of a run: `TRIGGER_SEED` where it is set, else always the same. It is printed, past the capture of tests.
pub fn seed(test: &str) -> u64 {
    let seed = match std::env::var("TRIGGER_SEED") {
        Ok(text) => text.parse().expect("TRIGGER_SEED is a number"),
        Err(_) => 20_260_101,
    };
    let line = format!("{test}: TRIGGER_SEED={seed}\n");
    std::io::stderr().write_all(line.as_bytes()).ok();
    seed
}

/// Xorshift with a multiplied output.
#[derive(Clone, Debug)]
pub struct Random(u64);

impl Random {
    /// The generator of one case of a run.
    pub fn new(seed: u64, case: u64) -> Random {
        let mixed = (seed ^ case.rotate_left(32)).wrapping_mul(0x9E37_79B9_7F4A_7C15);
        let mut random = Random(mixed | 1);
        for _ in 0..8 {
            random.word();
        }
        random
    }

    /// Any word.
    pub fn word(&mut self) -> u64 {
        self.0 ^= self.0 >> 12;
        self.0 ^= self.0 << 25;
        self.0 ^= self.0 >> 27;
        self.0.wrapping_mul(0x2545_F491_4F6C_DD1D)
    }

    /// A number below the bound, which is not 0.
    pub fn below(&mut self, bound: usize) -> usize {
        ((self.word() >> 32) as usize) % bound
    }

    /// A number from low to high, both included.
    pub fn between(&mut self, low: usize, high: usize) -> usize {
        low + self.below(high - low + 1)
    }

    /// True once in so many times.
    pub fn once_in(&mut self, times: usize) -> bool {
        self.below(times) == 0
    }

    /// One of the items.
    pub fn pick<'a, T>(&mut self, items: &'a [T]) -> &'a T {
        &items[self.below(items.len())]
    }
}
