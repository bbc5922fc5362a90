//! bit-set by its own calls.

use super::{hash_of, sum_of, NO_FLAG};
use crate::bits::{Bits, Offer};
use crate::rows::Call;
use ::bit_set::BitSet;

impl Bits for BitSet {
    fn offer(call: Call) -> Offer {
        match call {
            Call::And | Call::Or | Call::Xor | Call::AndNot | Call::Closure => NO_FLAG,
            Call::CountAnd => Offer::Other("intersection, counted"),
            Call::CountOr => Offer::Other("union, counted"),
            Call::CountAndNot => Offer::Other("difference, counted"),
            Call::CountXor => Offer::Other("symmetric_difference, counted"),
            Call::FirstSet => Offer::Other("next of iter"),
            Call::Set => Offer::Other("insert or remove"),
            Call::GrowAndSet => Offer::Other("insert"),
            Call::Minus => Offer::Other("difference_with, of a copy"),
            Call::Get
            | Call::OrDropped
            | Call::AndNotDropped
            | Call::Matrix
            | Call::Lists
            | Call::Clone
            | Call::Hash
            | Call::Equal
            | Call::Subset
            | Call::Superset
            | Call::Disjoint
            | Call::Any
            | Call::Intersection
            | Call::SetBits
            | Call::Transpose
            | Call::Count => Offer::Same,
            _ => Offer::None,
        }
    }
    fn and_not(&mut self, other: &BitSet) -> bool {
        self.difference_with(other);
        false
    }
    fn subset(&self, other: &BitSet) -> bool {
        self.is_subset(other)
    }
    fn superset(&self, other: &BitSet) -> bool {
        self.is_superset(other)
    }
    fn disjoint(&self, other: &BitSet) -> bool {
        self.is_disjoint(other)
    }
    fn any(&self) -> bool {
        !self.is_empty()
    }
    fn count_and(&self, other: &BitSet) -> u64 {
        self.intersection(other).count() as u64
    }
    fn count_or(&self, other: &BitSet) -> u64 {
        self.union(other).count() as u64
    }
    fn count_and_not(&self, other: &BitSet) -> u64 {
        self.difference(other).count() as u64
    }
    fn count_xor(&self, other: &BitSet) -> u64 {
        self.symmetric_difference(other).count() as u64
    }
    fn first_set(&self) -> Option<usize> {
        self.iter().next()
    }
    fn each_set_bit(&self, call: impl FnMut(usize)) {
        self.iter().for_each(call)
    }
    fn set_bits(&self) -> u64 {
        sum_of(self.iter())
    }
    fn counted(&self) -> u64 {
        BitSet::len(self) as u64
    }
    fn from_bytes(bytes: &[u8]) -> BitSet {
        BitSet::from_bytes(bytes)
    }
    fn len(&self) -> usize {
        self.get_ref().len()
    }
    fn get(&self, index: usize) -> bool {
        self.contains(index)
    }
    fn set(&mut self, index: usize, value: bool) -> bool {
        if value {
            self.insert(index)
        } else {
            self.remove(index)
        }
    }
    fn copied(&self) -> BitSet {
        self.clone()
    }
    fn hashed(&self) -> u64 {
        hash_of(self)
    }
    fn and(&mut self, other: &BitSet) -> bool {
        self.intersect_with(other);
        false
    }
    fn or(&mut self, other: &BitSet) -> bool {
        self.union_with(other);
        false
    }
    fn xor(&mut self, other: &BitSet) -> bool {
        self.symmetric_difference_with(other);
        false
    }
    fn both(&self, other: &BitSet) -> u64 {
        sum_of(self.intersection(other))
    }
    fn minus(&self, other: &BitSet) -> BitSet {
        let mut made = self.clone();
        made.difference_with(other);
        made
    }
    fn grown(indices: &[usize]) -> BitSet {
        let mut set = BitSet::new();
        for index in indices {
            set.insert(*index);
        }
        set
    }
    fn same(&self, other: &BitSet) -> bool {
        self == other
    }
}
