//! Bit vectors: making them, single bits, and lengths.

use crate::ffi;
use std::marker::PhantomData;

/// How many bits a word has.
pub(crate) const WORD: usize = u64::BITS as usize;

/// A type of the blocks that [`Bits::iter_storage`] returns.
pub trait Block: Copy + sealed::Sealed {
    /// How many bits a block has.
    const WIDTH: usize;

    /// Returns the block at a place of words.
    fn at(words: &[u64], place: usize) -> Self;

    /// Writes the block at a place of words that are 0 there. Returns whether all its set bits are in a word.
    fn put(self, words: &mut [u64], place: usize) -> bool;
}

mod sealed {
    pub trait Sealed {}
}

macro_rules! small_blocks {
    ($($type:ty as $unsigned:ty),*) => {
        $(
            impl sealed::Sealed for $type {}

            impl Block for $type {
                const WIDTH: usize = <$type>::BITS as usize;

                #[inline]
                fn at(words: &[u64], place: usize) -> $type {
                    let bit = place * Self::WIDTH;
                    (words[bit / WORD] >> (bit % WORD)) as $type
                }

                fn put(self, words: &mut [u64], place: usize) -> bool {
                    let bit = place * Self::WIDTH;
                    words[bit / WORD] |= u64::from(self as $unsigned) << (bit % WORD);
                    true
                }
            }
        )*
    };
}

small_blocks!(u8 as u8, u16 as u16, u32 as u32, u64 as u64, usize as u64);
small_blocks!(i8 as u8, i16 as u16, i32 as u32, i64 as u64, isize as u64);

macro_rules! large_blocks {
    ($($type:ty),*) => {
        $(
            impl sealed::Sealed for $type {}

            impl Block for $type {
                const WIDTH: usize = <$type>::BITS as usize;

                fn at(words: &[u64], place: usize) -> $type {
                    let high = words.get(2 * place + 1).copied().unwrap_or(0);
                    (u128::from(words[2 * place]) | u128::from(high) << WORD) as $type
                }

                fn put(self, words: &mut [u64], place: usize) -> bool {
                    let high = (self as u128 >> WORD) as u64;
                    words[2 * place] = self as u64;
                    words.get_mut(2 * place + 1).map(|word| *word = high).is_some() || high == 0
                }
            }
        )*
    };
}

large_blocks!(u128, i128);

/// Words that bits stand in.
///
/// # Safety
/// `as_ref` and `as_mut` give the same words, as long as the value isn't written.
pub unsafe trait Words: AsRef<[u64]> {}

unsafe impl Words for Vec<u64> {}
unsafe impl Words for Box<[u64]> {}
unsafe impl Words for &[u64] {}
unsafe impl Words for &mut [u64] {}
unsafe impl<const N: usize> Words for [u64; N] {}

/// Bits in words. Bit `i` stands in word `i / 64`, at the place of weight 2 ^ (`i` % 64).
///
/// The words are a `Vec<u64>`, which grows, or others that a caller has, as a `&[u64]` or a `&mut [u64]`. What
/// is written goes into them:
///
/// ```
/// use conthiral::Bits;
///
/// let mut words = [0b1001, 0];
/// let mut slots = Bits::from_words(&mut words[..], 100).unwrap();
/// slots.set_range(64..66, true);
/// assert_eq!(slots.iter_set_bits(..).collect::<Vec<_>>(), [0, 3, 64, 65]);
/// assert_eq!(words, [0b1001, 0b11]);
/// ```
#[derive(Clone, Copy)]
pub struct Bits<T = usize, W = Vec<u64>> {
    // as many words as the bits need; the places past the last bit are 0
    pub(crate) vec: W,
    pub(crate) len: usize,
    pub(crate) blocks: PhantomData<T>,
}

impl Bits<usize> {
    /// Returns an empty bit vector.
    pub fn new() -> Bits<usize> {
        Bits::new_with_storage_type(0)
    }

    /// Returns an empty bit vector with room for a number of bits.
    pub fn with_capacity(capacity: usize) -> Bits<usize> {
        Bits::new_with_storage_type(capacity)
    }

    /// Returns `len` bits of one value.
    pub fn from_elem(value: bool, len: usize) -> Bits<usize> {
        Bits::from_elem_with_storage_type(value, len)
    }

    /// Returns the bits of bytes, the most significant bit of each first. Panics if their number overflows.
    pub fn from_bytes(slice: &[u8]) -> Bits<usize> {
        let len = slice.len().checked_mul(8).expect("Overflow detected");
        let mut bits = Bits::from_elem(false, len);
        let words = bits.vec.as_mut_ptr();
        ffi::done(unsafe { ffi::conthiral_from_bytes(words, bits.vec.len(), len, slice.as_ptr(), slice.len(), true) });
        bits
    }
}

impl<W: Words> Bits<usize, W> {
    /// Returns the bits in words, or the words if their number isn't what `len` bits need, or if a bit past the
    /// last one is set.
    ///
    /// ```
    /// use conthiral::Bits;
    ///
    /// let words = [0b101];
    /// assert_eq!(Bits::from_words(&words[..], 3).unwrap().count_ones(), 2);
    /// assert!(Bits::from_words(&words[..], 2).is_err());
    /// ```
    pub fn from_words(words: W, len: usize) -> Result<Bits<usize, W>, W> {
        let (last, past) = (words.as_ref().last(), len % WORD);
        let is_canonical = past == 0 || last.is_some_and(|last| last >> past == 0);
        if words.as_ref().len() != len.div_ceil(WORD) || !is_canonical {
            return Err(words);
        }
        Ok(Bits { vec: words, len, blocks: PhantomData })
    }
}

impl<T, W> Bits<T, W> {
    /// Returns the number of bits.
    #[inline]
    pub fn len(&self) -> usize {
        self.len
    }

    /// Returns whether there is no bit.
    #[inline]
    pub fn is_empty(&self) -> bool {
        self.len == 0
    }

    /// Returns the words and the number of bits.
    pub fn into_words(self) -> (W, usize) {
        (self.vec, self.len)
    }
}

impl<T, W: Words> Bits<T, W> {
    /// Returns the words.
    #[inline]
    pub fn words(&self) -> &[u64] {
        self.vec.as_ref()
    }

    /// Returns the same bits in words of their own.
    pub fn to_vob(&self) -> Bits<T> {
        Bits { vec: self.words().to_vec(), len: self.len, blocks: PhantomData }
    }

    /// Returns the bit at an index, or `None` if it is past the last one.
    #[inline]
    pub fn get(&self, index: usize) -> Option<bool> {
        // there are as many words as the bits need
        (index < self.len).then(|| unsafe { self.get_unchecked(index) })
    }

    /// Returns the bit at an index.
    ///
    /// # Safety
    /// The index is below the length.
    #[inline]
    pub unsafe fn get_unchecked(&self, index: usize) -> bool {
        *self.words().get_unchecked(index / WORD) >> (index % WORD) & 1 == 1
    }
}

impl<T, W: Words + AsMut<[u64]>> Bits<T, W> {
    /// Writes the bit at an index, and returns whether it changed. Panics if the index is past the last one.
    #[inline]
    pub fn set(&mut self, index: usize, value: bool) -> bool {
        if index >= self.len {
            past(self.len, index);
        }
        // there are as many words as the bits need
        unsafe { self.set_unchecked(index, value) }
    }

    /// Writes the bit at an index, and returns whether it changed.
    ///
    /// # Safety
    /// The index is below the length.
    #[inline]
    pub unsafe fn set_unchecked(&mut self, index: usize, value: bool) -> bool {
        write(self.vec.as_mut().get_unchecked_mut(index / WORD), index, value)
    }
}

impl<T> Bits<T> {
    /// Returns an empty bit vector with room for a number of bits.
    pub fn new_with_storage_type(capacity: usize) -> Bits<T> {
        Bits { vec: Vec::with_capacity(capacity.div_ceil(WORD)), len: 0, blocks: PhantomData }
    }

    /// Returns `len` bits of one value.
    pub fn from_elem_with_storage_type(value: bool, len: usize) -> Bits<T> {
        let mut bits = Bits { vec: vec![0; len.div_ceil(WORD)], len, blocks: PhantomData };
        if value {
            bits.set_all(true);
        }
        bits
    }

    /// Returns for how many bits there is room: a multiple of 64.
    pub fn capacity(&self) -> usize {
        self.vec.capacity() * WORD
    }

    /// Makes room for more bits. Panics if the capacity overflows.
    pub fn reserve(&mut self, additional: usize) {
        let len = self.len.checked_add(additional).expect("Overflow detected");
        let words = len.checked_next_multiple_of(WORD).expect("Overflow detected") / WORD;
        self.vec.reserve(words - self.vec.len());
    }

    /// Gives back the room that no bit needs.
    pub fn shrink_to_fit(&mut self) {
        self.vec.shrink_to_fit();
    }

    /// Adds a bit at the end.
    #[inline]
    pub fn push(&mut self, value: bool) {
        let place = self.len % WORD;
        match self.vec.last_mut() {
            Some(last) if place > 0 => *last |= u64::from(value) << place,
            _ => self.vec.push(u64::from(value)),
        }
        self.len += 1;
    }

    /// Removes the last bit, and returns it, or `None` if there is none.
    #[inline]
    pub fn pop(&mut self) -> Option<bool> {
        let last = self.len.checked_sub(1)?;
        let value = self.vec[last / WORD] >> (last % WORD) & 1 == 1;
        if last % WORD == 0 {
            self.vec.pop();
        } else {
            self.vec[last / WORD] &= !(1 << (last % WORD));
        }
        self.len = last;
        Some(value)
    }

    /// Removes the bits from index `len` on, if there are any.
    pub fn truncate(&mut self, len: usize) {
        if len < self.len {
            self.len = len;
            self.vec.truncate(len.div_ceil(WORD));
            self.mask_last_block();
        }
    }

    /// Removes every bit.
    pub fn clear(&mut self) {
        self.truncate(0);
    }

    /// Makes the places past the last bit 0. Only `get_storage_mut` and `set_len` leave others.
    #[cfg(feature = "unsafe_internals")]
    pub fn mask_last_block(&mut self) {
        ffi::done(unsafe { ffi::conthiral_mask(self.vec.as_mut_ptr(), self.vec.len(), self.len) });
    }

    /// Makes the places past the last bit 0.
    #[cfg(not(feature = "unsafe_internals"))]
    pub(crate) fn mask_last_block(&mut self) {
        ffi::done(unsafe { ffi::conthiral_mask(self.vec.as_mut_ptr(), self.vec.len(), self.len) });
    }

    /// Returns the words.
    #[cfg(feature = "unsafe_internals")]
    pub fn get_storage(&self) -> &[u64] {
        &self.vec
    }

    /// Returns the words, to be written.
    ///
    /// # Safety
    /// There are as many words as the bits need, and the places past the last bit are 0, when the next call is
    /// made. `mask_last_block` sees to the places.
    #[cfg(feature = "unsafe_internals")]
    pub unsafe fn get_storage_mut(&mut self) -> &mut Vec<u64> {
        &mut self.vec
    }

    /// Sets the number of bits.
    ///
    /// # Safety
    /// As for `get_storage_mut`.
    #[cfg(feature = "unsafe_internals")]
    pub unsafe fn set_len(&mut self, len: usize) {
        self.len = len;
    }

    /// Makes the number of bits `new_len`. New bits have one value.
    pub fn resize(&mut self, new_len: usize, value: bool) {
        let old = self.len;
        if new_len <= old {
            self.truncate(new_len);
            return;
        }
        self.vec.resize(new_len.div_ceil(WORD), 0);
        self.len = new_len;
        if value {
            self.set_range(old.., true);
        }
    }

    /// Removes the bits from index `at` on, and returns them: none if `at` is past the last one.
    pub fn split_off(&mut self, at: usize) -> Bits<T> {
        let at = at.min(self.len);
        let mut end = Bits::from_elem_with_storage_type(false, self.len - at);
        end.copy_range(0, self, at..);
        self.truncate(at);
        end
    }

    /// Adds bits at the end.
    pub fn extend_from_slice(&mut self, other: &[bool]) {
        self.extend(other.iter().copied());
    }

    /// Adds the bits of another at the end. Panics if the length overflows.
    pub fn extend_from_vob<O: Words>(&mut self, other: &Bits<T, O>) {
        let old = self.len;
        self.resize(old.checked_add(other.len).expect("Overflow detected"), false);
        self.copy_range(old, other, ..);
    }
}

/// Writes the bit at an index into its word, and returns whether it changed.
#[inline]
pub(crate) fn write(word: &mut u64, index: usize, value: bool) -> bool {
    let bit = 1 << (index % WORD);
    let old = *word;
    *word = if value { old | bit } else { old & !bit };
    *word != old
}

/// Panics: an index is past the last one.
#[cold]
pub(crate) fn past(len: usize, index: usize) -> ! {
    panic!("Index out of bounds: the length is {len}, the index {index}");
}

/// Returns the block in which a bit stands.
#[cfg(all(test, vob_tests))]
pub(crate) fn block_offset<T: Block>(index: usize) -> usize {
    index / T::WIDTH
}

/// Returns how many blocks bits need.
pub(crate) fn blocks_required<T: Block>(bits: usize) -> usize {
    bits.div_ceil(T::WIDTH)
}
