//! vob 4.0.1 by its own calls.

use super::{hash_of, sum_of, COLLECT, CUTS};
use crate::bits::{Bits, End, Offer};
use crate::rows::Call;
use ::vob::Vob;

impl Bits for Vob {
    fn offer(call: Call) -> Offer {
        match call {
            Call::FromSlice => COLLECT,
            Call::DrainAligned | Call::DrainShifted => CUTS,
            Call::AndNot | Call::AndNotDropped => Offer::Other("and with a negated copy"),
            Call::Subset | Call::Superset => Offer::Other("and of a copy, then =="),
            Call::Disjoint => Offer::Other("and of a copy, then next of iter_set_bits"),
            Call::CountAnd => Offer::Other("and of a copy, then count"),
            Call::CountOr => Offer::Other("or of a copy, then count"),
            Call::CountAndNot => Offer::Other("and of a negated copy, then count"),
            Call::CountXor => Offer::Other("xor of a copy, then count"),
            Call::Any | Call::FirstSet => Offer::Other("next of iter_set_bits"),
            Call::LastSet => Offer::Other("next_back of iter_set_bits"),
            Call::LastUnset => Offer::Other("next_back of iter_unset_bits"),
            Call::All => Offer::Other("next of iter_unset_bits"),
            Call::NextSet => Offer::Other("iter_set_bits from there"),
            Call::PreviousSet => Offer::Other("iter_set_bits to there, from the back"),
            Call::NextUnset => Offer::Other("iter_unset_bits from there"),
            Call::PreviousUnset => Offer::Other("iter_unset_bits to there, from the back"),
            Call::Rank => Offer::Other("count of iter_set_bits to there"),
            Call::SetRange | Call::NegateRange | Call::CopyRange => Offer::Other("bit by bit"),
            Call::ToBytes => Offer::Other("its blocks, reversed"),
            Call::FromIndices => Offer::Other("from_elem, then set"),
            Call::Runs => Offer::Other("both walks in turn"),
            Call::FirstFree => Offer::Other("next of iter_unset_bits"),
            Call::Select => Offer::Other("nth of a walk"),
            Call::Deal => Offer::Other("next or next_back, pull by pull"),
            Call::Intersection => Offer::Other("and of a copy, then iter_set_bits"),
            Call::Minus => Offer::Other("and with a negated copy"),
            Call::Slice => Offer::Other("two cuts of a copy"),
            Call::Flip => Offer::Other("set of what get reads"),
            Call::GrowAndSet => Offer::Other("resize, then set"),
            Call::Order | Call::ShiftUp | Call::Reverse | Call::Rotate | Call::InsertRemove => {
                Offer::Other("bit by bit")
            }
            Call::Slots | Call::Arena | Call::Columns => Offer::None,
            _ => Offer::Same,
        }
    }
    fn from_bytes(bytes: &[u8]) -> Vob {
        Vob::from_bytes(bytes)
    }
    fn len(&self) -> usize {
        Vob::len(self)
    }
    fn get(&self, index: usize) -> bool {
        Vob::get(self, index) == Some(true)
    }
    fn set(&mut self, index: usize, value: bool) -> bool {
        Vob::set(self, index, value)
    }
    fn pushed(bits: &[bool]) -> Vob {
        let mut vob = Vob::new();
        for bit in bits {
            vob.push(*bit);
        }
        vob
    }
    fn from_slice(bits: &[bool]) -> Vob {
        bits.iter().copied().collect()
    }
    fn extend_from_slice(&mut self, bits: &[bool]) {
        Vob::extend_from_slice(self, bits);
    }
    fn truncate(&mut self, len: usize) {
        Vob::truncate(self, len);
    }
    fn walked(&self) -> u64 {
        let mut times = 0;
        for bit in self.iter() {
            times += bit as u64;
        }
        times
    }
    fn each_set_bit(&self, call: impl FnMut(usize)) {
        self.iter_set_bits(..).for_each(call)
    }
    fn set_bits(&self) -> u64 {
        sum_of(self.iter_set_bits(..))
    }
    fn set_bits_back(&self) -> u64 {
        sum_of(self.iter_set_bits(..).rev())
    }
    fn unset_bits(&self) -> u64 {
        sum_of(self.iter_unset_bits(..))
    }
    fn unset_bits_back(&self) -> u64 {
        sum_of(self.iter_unset_bits(..).rev())
    }
    fn set_bits_between(&self, from: usize, to: usize) -> u64 {
        sum_of(self.iter_set_bits(from..to))
    }
    fn deal(&self, pulls: &[End], answers: &mut Vec<Option<usize>>) {
        let mut walk = self.iter_set_bits(..);
        for pull in pulls {
            answers.push(match pull {
                End::Front => walk.next(),
                End::Back => walk.next_back(),
            });
        }
    }
    fn counted(&self) -> u64 {
        self.iter_set_bits(..).count() as u64
    }
    fn first_unset(&self) -> u64 {
        self.iter_unset_bits(..).next().unwrap_or(Vob::len(self)) as u64
    }
    fn resize(&mut self, len: usize, value: bool) {
        Vob::resize(self, len, value);
    }
    fn set_all(&mut self, value: bool) {
        Vob::set_all(self, value);
    }
    fn negate(&mut self) {
        Vob::negate(self);
    }
    fn copied(&self) -> Vob {
        self.clone()
    }
    fn hashed(&self) -> u64 {
        hash_of(self)
    }
    fn split_off(&mut self, at: usize) -> Vob {
        Vob::split_off(self, at)
    }
    fn drain(&mut self, from: usize, to: usize) -> Vob {
        let rest = Vob::split_off(self, to);
        let part = Vob::split_off(self, from);
        self.extend_from_vob(&rest);
        part
    }
    fn and(&mut self, other: &Vob) -> bool {
        Vob::and(self, other)
    }
    fn or(&mut self, other: &Vob) -> bool {
        Vob::or(self, other)
    }
    fn xor(&mut self, other: &Vob) -> bool {
        Vob::xor(self, other)
    }
    fn and_not(&mut self, other: &Vob) -> bool {
        let mut not = other.clone();
        not.negate();
        Vob::and(self, &not)
    }
    fn subset(&self, other: &Vob) -> bool {
        let mut both = self.clone();
        both.and(other);
        both == *self
    }
    fn disjoint(&self, other: &Vob) -> bool {
        let mut both = self.clone();
        both.and(other);
        !both.any()
    }
    fn count_and(&self, other: &Vob) -> u64 {
        let mut both = self.clone();
        both.and(other);
        both.iter_set_bits(..).count() as u64
    }
    fn count_or(&self, other: &Vob) -> u64 {
        let mut either = self.clone();
        either.or(other);
        either.iter_set_bits(..).count() as u64
    }
    fn count_and_not(&self, other: &Vob) -> u64 {
        let mut both = other.clone();
        both.negate();
        both.and(self);
        both.iter_set_bits(..).count() as u64
    }
    fn count_xor(&self, other: &Vob) -> u64 {
        let mut either = self.clone();
        either.xor(other);
        either.iter_set_bits(..).count() as u64
    }
    fn any(&self) -> bool {
        self.iter_set_bits(..).next().is_some()
    }
    fn all(&self) -> bool {
        self.iter_unset_bits(..).next().is_none()
    }
    fn previous_set(&self, below: usize) -> Option<usize> {
        self.iter_set_bits(..below).next_back()
    }
    fn previous_unset(&self, below: usize) -> Option<usize> {
        self.iter_unset_bits(..below).next_back()
    }
    fn first_set(&self) -> Option<usize> {
        self.iter_set_bits(..).next()
    }
    fn last_set(&self) -> Option<usize> {
        self.iter_set_bits(..).next_back()
    }
    fn last_unset(&self) -> Option<usize> {
        self.iter_unset_bits(..).next_back()
    }
    fn rank(&self, index: usize) -> u64 {
        self.iter_set_bits(..index).count() as u64
    }
    fn next_set(&self, from: usize) -> Option<usize> {
        self.iter_set_bits(from..).next()
    }
    fn first_unset_at(&self, from: usize) -> Option<usize> {
        self.iter_unset_bits(from..).next()
    }
    fn select(&self, k: usize) -> Option<usize> {
        self.iter_set_bits(..).nth(k)
    }
    fn to_bytes(&self) -> Vec<u8> {
        self.iter_storage()
            .flat_map(|block| block.reverse_bits().to_be_bytes())
            .take(Vob::len(self).div_ceil(8))
            .collect()
    }
    fn from_indices(len: usize, indices: &[usize]) -> Vob {
        let mut vob = Vob::from_elem(false, len);
        for index in indices {
            vob.set(*index, true);
        }
        vob
    }
    fn both(&self, other: &Vob) -> u64 {
        let mut both = self.clone();
        both.and(other);
        sum_of(both.iter_set_bits(..))
    }
    fn minus(&self, other: &Vob) -> Vob {
        let mut made = other.clone();
        made.negate();
        made.and(self);
        made
    }
    fn slice(&self, from: usize, to: usize) -> Vob {
        let mut made = self.clone();
        made.truncate(to);
        made.split_off(from)
    }
    fn flip(&mut self, index: usize) {
        if let Some(bit) = Vob::get(self, index) {
            Vob::set(self, index, !bit);
        }
    }
    fn grown(indices: &[usize]) -> Vob {
        let mut vob = Vob::new();
        for index in indices {
            if *index >= Vob::len(&vob) {
                Vob::resize(&mut vob, *index + 1, false);
            }
            Vob::set(&mut vob, *index, true);
        }
        vob
    }
    fn same(&self, other: &Vob) -> bool {
        self == other
    }
    fn join(&mut self, other: &Vob) {
        self.extend_from_vob(other);
    }
}
