//! Bit vectors written and read by `serde`, in the form that they have in vob 4.0.1: a struct `Vob` of the number of
//! bits, `len`, and the blocks, `vec`.

use crate::bits::{blocks_required, Bits, Block, Words, WORD};
use serde::de::{Deserialize, Deserializer, Error};
use serde::ser::{Serialize, SerializeStruct, Serializer};
use std::marker::PhantomData;

/// The blocks of a bit vector.
struct Blocks<'a, T, W>(&'a Bits<T, W>);

impl<T: Block + Serialize, W: Words> Serialize for Blocks<'_, T, W> {
    fn serialize<S: Serializer>(&self, serializer: S) -> Result<S::Ok, S::Error> {
        serializer.collect_seq(self.0.iter_storage())
    }
}

impl<T: Block + Serialize, W: Words> Serialize for Bits<T, W> {
    fn serialize<S: Serializer>(&self, serializer: S) -> Result<S::Ok, S::Error> {
        let mut record = serializer.serialize_struct("Vob", 2)?;
        record.serialize_field("len", &self.len)?;
        record.serialize_field("vec", &Blocks(self))?;
        record.end()
    }
}

/// What is read, before it is tested.
#[derive(serde::Deserialize)]
#[serde(rename = "Vob")]
struct Record<T> {
    len: usize,
    vec: Vec<T>,
}

impl<T: Block> Record<T> {
    /// Returns the bits, or `None` if the blocks are more or fewer than these need, or one past the last is set.
    fn bits(self) -> Option<Bits<T>> {
        if self.vec.len() != blocks_required::<T>(self.len) {
            return None;
        }
        let mut words = vec![0; self.len.div_ceil(WORD)];
        if !self.vec.iter().enumerate().all(|(place, block)| block.put(&mut words, place)) {
            return None;
        }
        let bits = Bits::from_words(words, self.len).ok()?;
        Some(Bits { vec: bits.vec, len: bits.len, blocks: PhantomData })
    }
}

/// Blocks are refused if they are more or fewer than the bits need, or if a bit past the last one is set.
impl<'de, T: Block + Deserialize<'de>> Deserialize<'de> for Bits<T> {
    fn deserialize<D: Deserializer<'de>>(deserializer: D) -> Result<Bits<T>, D::Error> {
        let bits = Record::deserialize(deserializer)?.bits();
        bits.ok_or_else(|| D::Error::custom("the blocks aren't those of so many bits"))
    }
}
