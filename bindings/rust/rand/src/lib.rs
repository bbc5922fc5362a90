//! The calls of the crate `rand` that the unit tests of vob 4.0.1 make. `CONTHIRAL_SEED` sets the seed, which
//! is printed.

use std::cell::Cell;
use std::env;
use std::ops::Range;
use std::time::{SystemTime, UNIX_EPOCH};

thread_local! {
    static STATE: Cell<u64> = Cell::new(seed());
}

fn seed() -> u64 {
    let given = env::var("CONTHIRAL_SEED").ok().and_then(|text| text.parse().ok());
    let seed = given.unwrap_or_else(|| {
        SystemTime::now().duration_since(UNIX_EPOCH).map_or(1, |time| time.as_nanos() as u64)
    });
    println!("CONTHIRAL_SEED={seed}");
    seed | 1
}

/// A source of random numbers.
pub struct Random;

/// Returns a source of random numbers.
pub fn rng() -> Random {
    Random
}

/// A type with random values.
pub trait Draw {
    fn of(word: u64) -> Self;
}

impl Draw for bool {
    fn of(word: u64) -> bool {
        word >> 63 == 1
    }
}

impl Draw for u8 {
    fn of(word: u64) -> u8 {
        (word >> 56) as u8
    }
}

pub trait Rng {
    fn word(&mut self) -> u64;

    fn random<T: Draw>(&mut self) -> T {
        T::of(self.word())
    }

    /// Returns a number of a range that isn't empty.
    fn random_range(&mut self, range: Range<usize>) -> usize {
        assert!(!range.is_empty(), "an empty range");
        range.start + (self.word() >> 32) as usize % range.len()
    }
}

impl Rng for Random {
    // xorshift64*, of Marsaglia and Vigna
    fn word(&mut self) -> u64 {
        STATE.with(|state| {
            let mut x = state.get();
            x ^= x >> 12;
            x ^= x << 25;
            x ^= x >> 27;
            state.set(x);
            x.wrapping_mul(0x2545_f491_4f6c_dd1d)
        })
    }
}
