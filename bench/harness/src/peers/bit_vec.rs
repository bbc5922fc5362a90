//! bit-vec by its own calls.

use super::{hash_of, COLLECT, EXTEND, NO_FLAG};
use crate::bits::{Bits, Offer};
use crate::rows::Call;
use ::bit_vec::BitVec;

impl Bits for BitVec {
    fn offer(call: Call) -> Offer {
        match call {
            Call::Set => NO_FLAG,
            Call::FromSlice => COLLECT,
            Call::ExtendFromSlice => EXTEND,
            Call::ExtendAligned | Call::ExtendShifted => Offer::Other("append of a copy"),
            Call::Resize => Offer::Other("grow"),
            Call::SetAll => Offer::Other("set_all or clear"),
            Call::SetBits
            | Call::SetBitsBack
            | Call::UnsetBits
            | Call::Count
            | Call::Subset
            | Call::Superset
            | Call::Disjoint
            | Call::CountAnd
            | Call::CountOr
            | Call::CountAndNot
            | Call::CountXor
            | Call::NextUnset
            | Call::PreviousUnset
            | Call::FirstSet
            | Call::LastSet
            | Call::LastUnset
            | Call::Rank
            | Call::NextSet
            | Call::PreviousSet
            | Call::SetRange
            | Call::NegateRange
            | Call::CopyRange
            | Call::FromIndices
            | Call::Runs
            | Call::Select
            | Call::SetBitsBetween
            | Call::UnsetBitsBack
            | Call::Deal
            | Call::Intersection
            | Call::Slice
            | Call::ShiftUp
            | Call::Reverse
            | Call::Rotate
            | Call::InsertRemove
            | Call::Flip
            | Call::GrowAndSet
            | Call::FirstFree
            | Call::Transpose
            | Call::Slots
            | Call::Arena
            | Call::Columns
            | Call::Filter => Offer::None,
            // Its split_off within a block can leave a block too many, which append takes in.
            Call::DrainAligned | Call::DrainShifted => Offer::None,
            Call::Minus => Offer::Other("difference, of a copy"),
            _ => Offer::Same,
        }
    }
    fn from_bytes(bytes: &[u8]) -> BitVec {
        BitVec::from_bytes(bytes)
    }
    fn len(&self) -> usize {
        BitVec::len(self)
    }
    fn get(&self, index: usize) -> bool {
        BitVec::get(self, index) == Some(true)
    }
    fn set(&mut self, index: usize, value: bool) -> bool {
        BitVec::set(self, index, value);
        false
    }
    fn pushed(bits: &[bool]) -> BitVec {
        let mut vec = BitVec::new();
        for bit in bits {
            vec.push(*bit);
        }
        vec
    }
    fn from_slice(bits: &[bool]) -> BitVec {
        bits.iter().copied().collect()
    }
    fn extend_from_slice(&mut self, bits: &[bool]) {
        self.extend(bits.iter().copied());
    }
    fn truncate(&mut self, len: usize) {
        BitVec::truncate(self, len);
    }
    fn walked(&self) -> u64 {
        let mut times = 0;
        for bit in self.iter() {
            times += bit as u64;
        }
        times
    }
    fn resize(&mut self, len: usize, value: bool) {
        self.grow(len - BitVec::len(self), value);
    }
    fn set_all(&mut self, value: bool) {
        if value {
            BitVec::set_all(self);
        } else {
            self.clear();
        }
    }
    fn negate(&mut self) {
        BitVec::negate(self);
    }
    fn copied(&self) -> BitVec {
        self.clone()
    }
    fn hashed(&self) -> u64 {
        hash_of(self)
    }
    fn split_off(&mut self, at: usize) -> BitVec {
        BitVec::split_off(self, at)
    }
    fn and(&mut self, other: &BitVec) -> bool {
        BitVec::and(self, other)
    }
    fn or(&mut self, other: &BitVec) -> bool {
        BitVec::or(self, other)
    }
    fn xor(&mut self, other: &BitVec) -> bool {
        BitVec::xor(self, other)
    }
    fn and_not(&mut self, other: &BitVec) -> bool {
        self.difference(other)
    }
    fn any(&self) -> bool {
        BitVec::any(self)
    }
    fn all(&self) -> bool {
        BitVec::all(self)
    }
    fn to_bytes(&self) -> Vec<u8> {
        BitVec::to_bytes(self)
    }
    fn same(&self, other: &BitVec) -> bool {
        self == other
    }
    fn before(&self, other: &BitVec) -> bool {
        self < other
    }
    fn minus(&self, other: &BitVec) -> BitVec {
        let mut made = self.clone();
        made.difference(other);
        made
    }
    fn join(&mut self, other: &BitVec) {
        self.append(&mut other.clone());
    }
}
