//! smallbitvec by its own calls.

use super::{hash_of, COLLECT, EXTEND, NO_FLAG};
use crate::bits::{Bits, Offer};
use crate::rows::Call;
use ::smallbitvec::SmallBitVec;

impl Bits for SmallBitVec {
    fn offer(call: Call) -> Offer {
        match call {
            Call::Set => NO_FLAG,
            Call::FromSlice => COLLECT,
            Call::ExtendFromSlice => EXTEND,
            Call::Push
            | Call::Get
            | Call::Iterate
            | Call::Any
            | Call::All
            | Call::Resize
            | Call::Clone
            | Call::Hash
            | Call::Equal => Offer::Same,
            _ => Offer::None,
        }
    }
    fn from_bytes(bytes: &[u8]) -> SmallBitVec {
        let places = |byte: &u8| {
            let byte = *byte;
            (0..8).map(move |j| byte & (0x80 >> j) != 0)
        };
        bytes.iter().flat_map(places).collect()
    }
    fn len(&self) -> usize {
        SmallBitVec::len(self)
    }
    fn get(&self, index: usize) -> bool {
        SmallBitVec::get(self, index) == Some(true)
    }
    fn set(&mut self, index: usize, value: bool) -> bool {
        SmallBitVec::set(self, index, value);
        false
    }
    fn pushed(bits: &[bool]) -> SmallBitVec {
        let mut vec = SmallBitVec::new();
        for bit in bits {
            vec.push(*bit);
        }
        vec
    }
    fn from_slice(bits: &[bool]) -> SmallBitVec {
        bits.iter().copied().collect()
    }
    fn extend_from_slice(&mut self, bits: &[bool]) {
        self.extend(bits.iter().copied());
    }
    fn truncate(&mut self, len: usize) {
        SmallBitVec::truncate(self, len);
    }
    fn walked(&self) -> u64 {
        let mut times = 0;
        for bit in self.iter() {
            times += bit as u64;
        }
        times
    }
    fn resize(&mut self, len: usize, value: bool) {
        SmallBitVec::resize(self, len, value);
    }
    fn any(&self) -> bool {
        !self.all_false()
    }
    fn all(&self) -> bool {
        self.all_true()
    }
    fn copied(&self) -> SmallBitVec {
        self.clone()
    }
    fn hashed(&self) -> u64 {
        hash_of(self)
    }
    fn same(&self, other: &SmallBitVec) -> bool {
        self == other
    }
}
