//! fixedbitset by its own calls.

use super::{hash_of, sum_of, NO_FLAG};
use crate::bits::{Bits, Offer};
use crate::rows::Call;
use ::fixedbitset::FixedBitSet;

impl Bits for FixedBitSet {
    fn offer(call: Call) -> Offer {
        match call {
            Call::Push => Offer::Less("pre-sized"),
            Call::Set | Call::And | Call::Or | Call::Xor | Call::AndNot | Call::Closure => NO_FLAG,
            Call::CountAnd => Offer::Other("intersection, counted"),
            Call::CountOr => Offer::Other("union, counted"),
            Call::CountAndNot => Offer::Other("difference, counted"),
            Call::CountXor => Offer::Other("symmetric_difference, counted"),
            Call::FirstSet => Offer::Other("next of ones"),
            Call::Rank => Offer::Other("count_ones of a range"),
            Call::All => Offer::Other("count_ones, compared"),
            Call::SetRange => NO_FLAG,
            Call::NegateRange => Offer::Other("toggle_range"),
            Call::FromIndices => Offer::Other("insert by insert"),
            Call::Iterate => Offer::Other("by index"),
            Call::SetAll => Offer::Other("insert_range or clear"),
            Call::Negate => Offer::Other("toggle_range"),
            Call::Live => Offer::Other("is_subset, then union_with"),
            Call::Available => Offer::Other("is_subset, then intersect_with"),
            Call::Flip => Offer::Other("toggle"),
            Call::Minus => Offer::Other("difference_with, of a copy"),
            Call::Filter => NO_FLAG,
            Call::Get
            | Call::OrDropped
            | Call::AndNotDropped
            | Call::Matrix
            | Call::Lists
            | Call::Clone
            | Call::Hash
            | Call::Equal
            | Call::Subset
            | Call::Superset
            | Call::Disjoint
            | Call::Any
            | Call::Intersection
            | Call::SetBits
            | Call::Transpose
            | Call::Count => Offer::Same,
            _ => Offer::None,
        }
    }
    fn kept(first: &FixedBitSet, second: &FixedBitSet, without: &FixedBitSet) -> FixedBitSet {
        let mut rows = first.clone();
        rows.intersect_with(second);
        rows.difference_with(without);
        rows
    }
    fn and_not(&mut self, other: &FixedBitSet) -> bool {
        self.difference_with(other);
        false
    }
    fn subset(&self, other: &FixedBitSet) -> bool {
        self.is_subset(other)
    }
    fn superset(&self, other: &FixedBitSet) -> bool {
        self.is_superset(other)
    }
    fn disjoint(&self, other: &FixedBitSet) -> bool {
        self.is_disjoint(other)
    }
    fn any(&self) -> bool {
        !self.is_clear()
    }
    fn all(&self) -> bool {
        self.count_ones(..) == FixedBitSet::len(self)
    }
    fn set_range(&mut self, from: usize, to: usize, value: bool) {
        FixedBitSet::set_range(self, from..to, value);
    }
    fn negate_range(&mut self, from: usize, to: usize) {
        self.toggle_range(from..to);
    }
    fn from_indices(len: usize, indices: &[usize]) -> FixedBitSet {
        let mut set = FixedBitSet::with_capacity(len);
        for index in indices {
            set.insert(*index);
        }
        set
    }
    fn count_and(&self, other: &FixedBitSet) -> u64 {
        self.intersection(other).count() as u64
    }
    fn count_or(&self, other: &FixedBitSet) -> u64 {
        self.union(other).count() as u64
    }
    fn count_and_not(&self, other: &FixedBitSet) -> u64 {
        self.difference(other).count() as u64
    }
    fn count_xor(&self, other: &FixedBitSet) -> u64 {
        self.symmetric_difference(other).count() as u64
    }
    fn first_set(&self) -> Option<usize> {
        self.ones().next()
    }
    fn rank(&self, index: usize) -> u64 {
        self.count_ones(..index) as u64
    }
    fn each_set_bit(&self, call: impl FnMut(usize)) {
        self.ones().for_each(call)
    }
    fn set_bits(&self) -> u64 {
        sum_of(self.ones())
    }
    fn counted(&self) -> u64 {
        self.count_ones(..) as u64
    }
    fn from_bytes(bytes: &[u8]) -> FixedBitSet {
        let blocks = bytes.chunks(4).map(|chunk| {
            let mut four = [0; 4];
            four[..chunk.len()].copy_from_slice(chunk);
            u32::from_be_bytes(four).reverse_bits()
        });
        FixedBitSet::with_capacity_and_blocks(8 * bytes.len(), blocks)
    }
    fn len(&self) -> usize {
        FixedBitSet::len(self)
    }
    fn get(&self, index: usize) -> bool {
        self.contains(index)
    }
    fn set(&mut self, index: usize, value: bool) -> bool {
        FixedBitSet::set(self, index, value);
        false
    }
    fn pushed(bits: &[bool]) -> FixedBitSet {
        let mut set = FixedBitSet::with_capacity(bits.len());
        for (index, bit) in bits.iter().enumerate() {
            set.set(index, *bit);
        }
        set
    }
    fn walked(&self) -> u64 {
        let mut times = 0;
        for index in 0..FixedBitSet::len(self) {
            times += self.contains(index) as u64;
        }
        times
    }
    fn set_all(&mut self, value: bool) {
        if value {
            self.insert_range(..);
        } else {
            self.clear();
        }
    }
    fn negate(&mut self) {
        self.toggle_range(..);
    }
    fn copied(&self) -> FixedBitSet {
        self.clone()
    }
    fn hashed(&self) -> u64 {
        hash_of(self)
    }
    fn and(&mut self, other: &FixedBitSet) -> bool {
        self.intersect_with(other);
        false
    }
    fn or(&mut self, other: &FixedBitSet) -> bool {
        self.union_with(other);
        false
    }
    fn or_grows(&mut self, other: &FixedBitSet) -> bool {
        let grows = !other.is_subset(self);
        if grows {
            self.union_with(other);
        }
        grows
    }
    fn and_shrinks(&mut self, other: &FixedBitSet) -> bool {
        let shrinks = !self.is_subset(other);
        if shrinks {
            self.intersect_with(other);
        }
        shrinks
    }
    fn both(&self, other: &FixedBitSet) -> u64 {
        sum_of(self.intersection(other))
    }
    fn minus(&self, other: &FixedBitSet) -> FixedBitSet {
        let mut made = self.clone();
        made.difference_with(other);
        made
    }
    fn flip(&mut self, index: usize) {
        self.toggle(index);
    }
    fn xor(&mut self, other: &FixedBitSet) -> bool {
        self.symmetric_difference_with(other);
        false
    }
    fn same(&self, other: &FixedBitSet) -> bool {
        self == other
    }
}
