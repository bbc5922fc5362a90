//! What a peer offers.

use crate::rows::Call;

/// Whether a library has a call, and whether it does the same work by it.
#[derive(Clone, Copy, PartialEq, Eq)]
pub enum Offer {
    Same,
    /// It does less, as with no answer whether a bit changed.
    Less(&'static str),
    /// It has no such call, and reaches the same by others.
    Other(&'static str),
    /// It is ours too, and no peer.
    Ours,
    None,
}

/// The end of a walk that an index is asked from.
#[derive(Clone, Copy)]
pub enum End {
    Front,
    Back,
}

/// A vector of bits. A method that its `offer` has `None` for is never called.
pub trait Bits: Sized {
    fn offer(call: Call) -> Offer;
    fn from_bytes(bytes: &[u8]) -> Self;
    fn len(&self) -> usize;
    fn get(&self, index: usize) -> bool;

    /// Whether the bit changed. Where the library doesn't say, false.
    fn set(&mut self, index: usize, value: bool) -> bool;

    fn pushed(_bits: &[bool]) -> Self {
        unimplemented!()
    }
    fn from_slice(_bits: &[bool]) -> Self {
        unimplemented!()
    }
    fn extend_from_slice(&mut self, _bits: &[bool]) {
        unimplemented!()
    }
    fn truncate(&mut self, _len: usize) {
        unimplemented!()
    }
    fn walked(&self) -> u64 {
        unimplemented!()
    }
    fn set_bits(&self) -> u64 {
        unimplemented!()
    }
    fn set_bits_back(&self) -> u64 {
        unimplemented!()
    }
    fn unset_bits(&self) -> u64 {
        unimplemented!()
    }
    fn unset_bits_back(&self) -> u64 {
        unimplemented!()
    }
    fn set_bits_between(&self, _from: usize, _to: usize) -> u64 {
        unimplemented!()
    }

    /// The indices of set bits as they are asked for, from either end.
    fn deal(&self, _pulls: &[End], _answers: &mut Vec<Option<usize>>) {
        unimplemented!()
    }

    /// Calls with the index of each set bit.
    fn each_set_bit(&self, _call: impl FnMut(usize)) {
        unimplemented!()
    }
    fn counted(&self) -> u64 {
        unimplemented!()
    }
    fn first_unset(&self) -> u64 {
        unimplemented!()
    }
    fn resize(&mut self, _len: usize, _value: bool) {
        unimplemented!()
    }
    fn set_all(&mut self, _value: bool) {
        unimplemented!()
    }
    fn negate(&mut self) {
        unimplemented!()
    }
    fn copied(&self) -> Self {
        unimplemented!()
    }
    fn hashed(&self) -> u64 {
        unimplemented!()
    }
    fn split_off(&mut self, _at: usize) -> Self {
        unimplemented!()
    }
    fn drain(&mut self, _from: usize, _to: usize) -> Self {
        unimplemented!()
    }
    fn and(&mut self, _other: &Self) -> bool {
        unimplemented!()
    }
    fn or(&mut self, _other: &Self) -> bool {
        unimplemented!()
    }

    /// `or`, and whether the library or a test of it says that a bit was added.
    fn or_grows(&mut self, other: &Self) -> bool {
        self.or(other)
    }

    /// `and`, and whether the library or a test of it says that a bit was taken.
    fn and_shrinks(&mut self, other: &Self) -> bool {
        self.and(other)
    }
    fn xor(&mut self, _other: &Self) -> bool {
        unimplemented!()
    }
    fn and_not(&mut self, _other: &Self) -> bool {
        unimplemented!()
    }

    /// What is in two and not in a third. A library with a difference by blocks takes that.
    fn kept(first: &Self, second: &Self, without: &Self) -> Self {
        let mut rows = without.copied();
        rows.negate();
        rows.and(first);
        rows.and(second);
        rows
    }
    fn subset(&self, _other: &Self) -> bool {
        unimplemented!()
    }
    fn superset(&self, other: &Self) -> bool {
        other.subset(self)
    }
    fn disjoint(&self, _other: &Self) -> bool {
        unimplemented!()
    }
    fn count_and(&self, _other: &Self) -> u64 {
        unimplemented!()
    }
    fn count_or(&self, _other: &Self) -> u64 {
        unimplemented!()
    }
    fn count_and_not(&self, _other: &Self) -> u64 {
        unimplemented!()
    }
    fn count_xor(&self, _other: &Self) -> u64 {
        unimplemented!()
    }
    fn any(&self) -> bool {
        unimplemented!()
    }
    fn all(&self) -> bool {
        unimplemented!()
    }

    fn set_range(&mut self, from: usize, to: usize, value: bool) {
        for index in from..to {
            self.set(index, value);
        }
    }
    fn negate_range(&mut self, from: usize, to: usize) {
        for index in from..to {
            self.set(index, !self.get(index));
        }
    }
    fn copy_range(&mut self, at: usize, other: &Self, from: usize, to: usize) {
        for index in from..to {
            self.set(at + index - from, other.get(index));
        }
    }
    fn to_bytes(&self) -> Vec<u8> {
        unimplemented!()
    }
    fn from_indices(_len: usize, _indices: &[usize]) -> Self {
        unimplemented!()
    }
    fn first_set_at(&self, from: usize) -> Option<usize> {
        self.next_set(from)
    }
    fn first_unset_at(&self, _from: usize) -> Option<usize> {
        unimplemented!()
    }

    /// The set bit with so many before it.
    fn select(&self, _k: usize) -> Option<usize> {
        unimplemented!()
    }

    /// The first set bit at or above an index.
    fn next_set(&self, _from: usize) -> Option<usize> {
        unimplemented!()
    }

    /// The last set bit below an index.
    fn previous_set(&self, _below: usize) -> Option<usize> {
        unimplemented!()
    }
    /// The first unset bit at or above an index.
    fn next_unset(&self, from: usize) -> Option<usize> {
        self.first_unset_at(from)
    }

    /// The last unset bit below an index.
    fn previous_unset(&self, _below: usize) -> Option<usize> {
        unimplemented!()
    }
    fn first_set(&self) -> Option<usize> {
        unimplemented!()
    }
    fn last_set(&self) -> Option<usize> {
        unimplemented!()
    }
    fn last_unset(&self) -> Option<usize> {
        unimplemented!()
    }

    /// How many set bits stand below an index.
    fn rank(&self, _index: usize) -> u64 {
        unimplemented!()
    }
    fn same(&self, _other: &Self) -> bool {
        unimplemented!()
    }

    /// Whether this one comes before another of its length in the order of lists.
    fn before(&self, other: &Self) -> bool {
        let differs = (0..self.len()).find(|index| self.get(*index) != other.get(*index));
        differs.is_some_and(|index| other.get(index))
    }
    fn shift_up(&mut self, n: usize) {
        for index in (0..self.len()).rev() {
            self.set(index, index >= n && self.get(index - n));
        }
    }
    fn reverse(&mut self) {
        for index in 0..self.len() / 2 {
            let other = self.len() - 1 - index;
            let (low, high) = (self.get(index), self.get(other));
            self.set(index, high);
            self.set(other, low);
        }
    }
    fn rotate_left(&mut self, n: usize) {
        let first: Vec<bool> = (0..n).map(|index| self.get(index)).collect();
        let rest = self.len() - n;
        for index in 0..self.len() {
            let bit = if index < rest { self.get(index + n) } else { first[index - rest] };
            self.set(index, bit);
        }
    }

    /// A bit put in at the middle, and then one taken out at index `at`, which is below that.
    fn insert_and_remove(&mut self, at: usize, value: bool) {
        let middle = self.len() / 2;
        for index in at..middle - 1 {
            self.set(index, self.get(index + 1));
        }
        self.set(middle - 1, value);
    }

    /// The sum of the indices that both have.
    fn both(&self, _other: &Self) -> u64 {
        unimplemented!()
    }
    fn minus(&self, _other: &Self) -> Self {
        unimplemented!()
    }
    fn slice(&self, _from: usize, _to: usize) -> Self {
        unimplemented!()
    }
    fn flip(&mut self, _index: usize) {
        unimplemented!()
    }

    /// The bits at these indices, in one that grows where it must.
    fn grown(_indices: &[usize]) -> Self {
        unimplemented!()
    }
    fn join(&mut self, _other: &Self) {
        unimplemented!()
    }
}
