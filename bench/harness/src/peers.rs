//! The peers in Rust, by their own calls. What a peer's call does less, its `offer` says.

mod bit_set;
mod bit_vec;
mod fixedbitset;
mod smallbitvec;
mod vob;

use crate::bits::Offer;
use std::collections::hash_map::DefaultHasher;
use std::hash::{Hash, Hasher};

fn hash_of<T: Hash>(value: &T) -> u64 {
    let mut state = DefaultHasher::new();
    value.hash(&mut state);
    state.finish()
}

fn sum_of(indices: impl Iterator<Item = usize>) -> u64 {
    let mut sum = 0u64;
    for index in indices {
        sum = sum.wrapping_add(index as u64);
    }
    sum
}

const NO_FLAG: Offer = Offer::Less("no flag");
const COLLECT: Offer = Offer::Other("collect");
const EXTEND: Offer = Offer::Other("extend");
const CUTS: Offer = Offer::Other("two cuts and a join");
