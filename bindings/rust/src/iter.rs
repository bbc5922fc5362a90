//! Walks over bits, over the indices of set or unset bits, and over blocks.

use crate::bits::{blocks_required, Bits, Block, Words, WORD};
use crate::ffi;
use crate::words::cut;
use std::iter::FusedIterator;
use std::marker::PhantomData;
use std::ops::{Range, RangeBounds};
use std::slice;

/// The bits, from either end.
#[derive(Clone)]
pub struct Iter<'a, T = usize> {
    words: &'a [u64],
    left: Range<usize>,
    blocks: PhantomData<T>,
}

impl<T> Iter<'_, T> {
    #[inline]
    fn bit(&self, index: usize) -> bool {
        self.words[index / WORD] >> (index % WORD) & 1 == 1
    }
}

impl<T> Iterator for Iter<'_, T> {
    type Item = bool;

    #[inline]
    fn next(&mut self) -> Option<bool> {
        let index = self.left.next()?;
        Some(self.bit(index))
    }

    fn size_hint(&self) -> (usize, Option<usize>) {
        self.left.size_hint()
    }

    fn count(self) -> usize {
        self.left.len()
    }

    fn nth(&mut self, n: usize) -> Option<bool> {
        let index = self.left.nth(n)?;
        Some(self.bit(index))
    }
}

impl<T> DoubleEndedIterator for Iter<'_, T> {
    #[inline]
    fn next_back(&mut self) -> Option<bool> {
        let index = self.left.next_back()?;
        Some(self.bit(index))
    }
}

impl<T> ExactSizeIterator for Iter<'_, T> {}
impl<T> FusedIterator for Iter<'_, T> {}

impl<'a, T, W: Words> IntoIterator for &'a Bits<T, W> {
    type Item = bool;
    type IntoIter = Iter<'a, T>;

    fn into_iter(self) -> Iter<'a, T> {
        self.iter()
    }
}

/// What is left of a word: its bits in question are set, and bit 0 has an index.
#[derive(Clone, Copy)]
struct Part {
    bits: u64,
    index: usize,
}

impl Part {
    /// Takes the first index, if there is one.
    #[inline]
    fn first(&mut self) -> Option<usize> {
        if self.bits == 0 {
            return None;
        }
        let place = self.bits.trailing_zeros() as usize;
        self.bits &= self.bits - 1;
        Some(self.index + place)
    }

    /// Takes the last index, if there is one.
    #[inline]
    fn last(&mut self) -> Option<usize> {
        let place = self.bits.checked_ilog2()?;
        self.bits ^= 1 << place;
        Some(self.index + place as usize)
    }
}

/// A walk over the indices of bits of one value.
#[derive(Clone)]
struct Walk<'a> {
    // the words between the two parts, and what makes the bits in question set
    words: slice::Iter<'a, u64>,
    flips: u64,
    front: Part,
    back: Part,
}

impl<'a> Walk<'a> {
    fn new<T, W: Words, R: RangeBounds<usize>>(bits: &'a Bits<T, W>, range: R, value: bool) -> Walk<'a> {
        let (start, stop) = cut(range, bits.len);
        let flips = if value { 0 } else { u64::MAX };
        let none = Part { bits: 0, index: 0 };
        if start == stop {
            return Walk { words: [].iter(), flips, front: none, back: none };
        }
        let (first, last) = (start / WORD, (stop - 1) / WORD);
        let part = |word: usize| Part { bits: bits.words()[word] ^ flips, index: word * WORD };
        let (mut front, mut back) = (part(first), part(last));
        let past = u64::MAX >> ((WORD - stop % WORD) % WORD);
        front.bits &= u64::MAX << (start % WORD);
        if first == last {
            front.bits &= past;
            return Walk { words: [].iter(), flips, front, back: none };
        }
        back.bits &= past;
        Walk { words: bits.words()[first + 1..last].iter(), flips, front, back }
    }

    #[inline]
    fn next(&mut self) -> Option<usize> {
        loop {
            if let Some(index) = self.front.first() {
                return Some(index);
            }
            let Some(word) = self.words.next() else {
                self.front = self.back;
                self.back.bits = 0;
                return self.front.first();
            };
            self.front = Part { bits: word ^ self.flips, index: self.front.index + WORD };
        }
    }

    #[inline]
    fn next_back(&mut self) -> Option<usize> {
        loop {
            if let Some(index) = self.back.last() {
                return Some(index);
            }
            let Some(word) = self.words.next_back() else {
                self.back = self.front;
                self.front.bits = 0;
                return self.back.last();
            };
            self.back = Part { bits: word ^ self.flips, index: self.back.index - WORD };
        }
    }

    /// Returns how many indices the two parts have, and how many bits the words between them.
    fn sizes(&self) -> (usize, usize) {
        ((self.front.bits.count_ones() + self.back.bits.count_ones()) as usize, self.words.len() * WORD)
    }

    fn count(self) -> usize {
        let (ends, bits) = self.sizes();
        let (words, mut ones) = (self.words.as_slice(), 0);
        ffi::done(unsafe { ffi::conthiral_count_ones(words.as_ptr(), words.len(), bits, &mut ones) });
        ends + if self.flips == 0 { ones } else { bits - ones }
    }

    fn size_hint(&self) -> (usize, Option<usize>) {
        let (ends, bits) = self.sizes();
        (ends, Some(ends + bits))
    }
}

/// Writes the walks over set and over unset bits.
macro_rules! walks {
    ($($(#[$doc:meta])* $name:ident;)*) => {
        $(
            $(#[$doc])*
            #[derive(Clone)]
            pub struct $name<'a, T = usize> {
                walk: Walk<'a>,
                blocks: PhantomData<&'a T>,
            }

            impl<T> Iterator for $name<'_, T> {
                type Item = usize;

                #[inline]
                fn next(&mut self) -> Option<usize> {
                    self.walk.next()
                }

                fn size_hint(&self) -> (usize, Option<usize>) {
                    self.walk.size_hint()
                }

                fn count(self) -> usize {
                    self.walk.count()
                }
            }

            impl<T> DoubleEndedIterator for $name<'_, T> {
                #[inline]
                fn next_back(&mut self) -> Option<usize> {
                    self.walk.next_back()
                }
            }

            impl<T> FusedIterator for $name<'_, T> {}
        )*
    };
}

walks! {
    /// The indices of set bits, from either end.
    IterSetBits;
    /// The indices of unset bits, from either end.
    IterUnsetBits;
}

/// The blocks, the lowest first.
#[derive(Clone)]
pub struct StorageIter<'a, T> {
    words: &'a [u64],
    left: Range<usize>,
    blocks: PhantomData<T>,
}

impl<T: Block> Iterator for StorageIter<'_, T> {
    type Item = T;

    #[inline]
    fn next(&mut self) -> Option<T> {
        Some(T::at(self.words, self.left.next()?))
    }

    fn size_hint(&self) -> (usize, Option<usize>) {
        self.left.size_hint()
    }
}

impl<T: Block> ExactSizeIterator for StorageIter<'_, T> {}
impl<T: Block> FusedIterator for StorageIter<'_, T> {}

impl<T, W: Words> Bits<T, W> {
    /// Returns a walk over the bits.
    #[inline]
    pub fn iter(&self) -> Iter<'_, T> {
        Iter { words: self.words(), left: 0..self.len, blocks: PhantomData }
    }

    /// Returns a walk over the indices of the set bits of a range, which is cut to the bits.
    pub fn iter_set_bits<R: RangeBounds<usize>>(&self, range: R) -> IterSetBits<'_, T> {
        IterSetBits { walk: Walk::new(self, range, true), blocks: PhantomData }
    }

    /// Returns a walk over the indices of the unset bits of a range, which is cut to the bits.
    pub fn iter_unset_bits<R: RangeBounds<usize>>(&self, range: R) -> IterUnsetBits<'_, T> {
        IterUnsetBits { walk: Walk::new(self, range, false), blocks: PhantomData }
    }

    /// Returns a walk over the blocks. The places of the last one past the last bit are 0.
    pub fn iter_storage(&self) -> StorageIter<'_, T>
    where
        T: Block,
    {
        StorageIter { words: self.words(), left: 0..blocks_required::<T>(self.len), blocks: PhantomData }
    }
}
