//! The calls of the library: on ranges, on all bits, and on two bit vectors.

use crate::bits::{past, Bits, Words};
use crate::ffi;
use std::ops::{Bound, RangeBounds};

/// Returns the indices of a range that are below a length: the first, and the one after the last.
pub(crate) fn cut<R: RangeBounds<usize>>(range: R, len: usize) -> (usize, usize) {
    let start = match range.start_bound() {
        Bound::Included(&first) => first,
        Bound::Excluded(&before) => before.saturating_add(1),
        Bound::Unbounded => 0,
    };
    let stop = match range.end_bound() {
        Bound::Included(&last) => last.saturating_add(1),
        Bound::Excluded(&after) => after,
        Bound::Unbounded => len,
    };
    let stop = stop.min(len);
    (start.min(stop), stop)
}

/// Returns an index, or `None` if it is the length.
pub(crate) fn index_below(index: usize, len: usize) -> Option<usize> {
    (index < len).then_some(index)
}

/// Writes a call on the words of one bit vector.
macro_rules! on_words {
    ($self:ident, $call:ident $(, $argument:expr)*) => {{
        let words = $self.vec.as_mut();
        ffi::done(unsafe { ffi::$call(words.as_mut_ptr(), words.len(), $self.len $(, $argument)*) })
    }};
}

/// Writes a call on the words of one bit vector that returns a value.
macro_rules! of_words {
    ($self:ident, $call:ident, $start:expr $(, $argument:expr)*) => {{
        let (words, mut result) = ($self.words(), $start);
        ffi::done(unsafe { ffi::$call(words.as_ptr(), words.len(), $self.len $(, $argument)*, &mut result) });
        result
    }};
}

impl<T, W> Bits<T, W> {
    /// Panics unless another has as many bits.
    fn match_len<O>(&self, other: &Bits<T, O>) {
        assert_eq!(self.len, other.len, "the lengths differ");
    }
}

impl<T, W: Words + AsMut<[u64]>> Bits<T, W> {
    /// Makes every bit one value.
    pub fn set_all(&mut self, value: bool) {
        on_words!(self, conthiral_fill, value);
    }

    /// Negates every bit.
    pub fn negate(&mut self) {
        on_words!(self, conthiral_negate);
    }

    /// Makes the bits of a range one value, and returns whether one changed. A range is cut to the bits.
    pub fn set_range<R: RangeBounds<usize>>(&mut self, range: R, value: bool) -> bool {
        let (start, stop) = cut(range, self.len);
        let mut changed = false;
        on_words!(self, conthiral_set_range, start, stop, value, &mut changed);
        changed
    }

    /// Negates the bits of a range, which is cut to the bits.
    pub fn negate_range<R: RangeBounds<usize>>(&mut self, range: R) {
        let (start, stop) = cut(range, self.len);
        on_words!(self, conthiral_negate_range, start, stop);
    }

    /// Writes a range of another's bits, cut to these, over those from index `at` on. Panics if they pass the
    /// last one.
    pub fn copy_range<O: Words, R: RangeBounds<usize>>(&mut self, at: usize, other: &Bits<T, O>, range: R) {
        let (start, stop) = cut(range, other.len);
        if self.len < at || self.len - at < stop - start {
            past(self.len, at);
        }
        let from = other.words();
        on_words!(self, conthiral_copy, at, from.as_ptr(), from.len(), other.len, start, stop - start);
    }

    /// Writes a range of the bits, cut to these, over those from index `at` on, as if all were read first.
    /// Panics if they pass the last one.
    pub fn copy_within<R: RangeBounds<usize>>(&mut self, range: R, at: usize) {
        let (start, stop) = cut(range, self.len);
        if self.len < at || self.len - at < stop - start {
            past(self.len, at);
        }
        on_words!(self, conthiral_move, at, start, stop - start);
    }

    /// Moves every bit up by `n` indices; the lowest become false.
    pub fn shl(&mut self, n: usize) {
        on_words!(self, conthiral_shift_up, n);
    }

    /// Moves every bit down by `n` indices; the highest become false.
    pub fn shr(&mut self, n: usize) {
        on_words!(self, conthiral_shift_down, n);
    }

    /// Reverses the order of the bits.
    pub fn reverse(&mut self) {
        on_words!(self, conthiral_reverse);
    }

    /// Puts the first `n` bits after the others, as a slice's call does. `n` is taken modulo the length.
    pub fn rotate_left(&mut self, n: usize) {
        on_words!(self, conthiral_rotate_down, n);
    }

    /// Puts the last `n` bits before the others, as a slice's call does. `n` is taken modulo the length.
    pub fn rotate_right(&mut self, n: usize) {
        on_words!(self, conthiral_rotate_up, n);
    }
}

impl<T, W: Words> Bits<T, W> {
    /// Returns the bits of a range, which is cut to the bits.
    pub fn slice<R: RangeBounds<usize>>(&self, range: R) -> Bits<T> {
        let (start, stop) = cut(range, self.len);
        let mut bits = Bits::from_elem_with_storage_type(false, stop - start);
        bits.copy_range(0, self, start..stop);
        bits
    }

    /// Returns how many bits are set.
    pub fn count_ones(&self) -> usize {
        of_words!(self, conthiral_count_ones, 0)
    }

    /// Returns how many bits are unset.
    pub fn count_zeros(&self) -> usize {
        self.len - self.count_ones()
    }

    /// Returns how many bits below an index are set.
    pub fn rank(&self, index: usize) -> usize {
        of_words!(self, conthiral_rank, 0, index)
    }

    /// Returns the index of the set bit below which `k` bits are set.
    pub fn select(&self, k: usize) -> Option<usize> {
        index_below(of_words!(self, conthiral_select, 0, k), self.len)
    }

    /// Returns the first index from one on whose bit is set.
    pub fn next_set(&self, from: usize) -> Option<usize> {
        index_below(of_words!(self, conthiral_next, 0, true, from), self.len)
    }

    /// Returns the first index from one on whose bit is unset.
    pub fn next_unset(&self, from: usize) -> Option<usize> {
        index_below(of_words!(self, conthiral_next, 0, false, from), self.len)
    }

    /// Returns the last index up to one whose bit is set.
    pub fn previous_set(&self, upto: usize) -> Option<usize> {
        index_below(of_words!(self, conthiral_previous, 0, true, upto), self.len)
    }

    /// Returns the last index up to one whose bit is unset.
    pub fn previous_unset(&self, upto: usize) -> Option<usize> {
        index_below(of_words!(self, conthiral_previous, 0, false, upto), self.len)
    }

    /// Returns the first index from which on `n` bits are unset. Panics if `n` is 0.
    pub fn first_unset_run(&self, n: usize) -> Option<usize> {
        assert_ne!(n, 0, "a run has a bit");
        index_below(of_words!(self, conthiral_first_unset_run, 0, n), self.len)
    }

    /// Returns the bytes of the bits, the most significant bit of each first. The last one is filled with 0.
    pub fn to_bytes(&self) -> Vec<u8> {
        let (words, mut bytes) = (self.words(), vec![0; self.len.div_ceil(8)]);
        let (to, count) = (bytes.as_mut_ptr(), bytes.len());
        ffi::done(unsafe { ffi::conthiral_to_bytes(words.as_ptr(), words.len(), self.len, to, count, true) });
        bytes
    }
}

/// Writes the calls that combine two bit vectors of one length.
macro_rules! combine {
    ($($(#[$doc:meta])* fn $name:ident by $call:ident;)*) => {
        impl<T, W: Words + AsMut<[u64]>> Bits<T, W> {
            $(
                $(#[$doc])*
                /// Returns whether a bit changed. Panics if the lengths differ.
                pub fn $name<O: Words>(&mut self, other: &Bits<T, O>) -> bool {
                    self.match_len(other);
                    let (own, other, mut changed) = (self.vec.as_mut(), other.words(), false);
                    ffi::done(unsafe {
                        ffi::$call(
                            own.as_mut_ptr(), own.len(), other.as_ptr(), other.len(), self.len, &mut changed,
                        )
                    });
                    changed
                }
            )*
        }
    };
}

combine! {
    /// Keeps the set bits that another has too.
    fn and by conthiral_and;
    /// Sets the bits that another has.
    fn or by conthiral_or;
    /// Keeps the set bits that exactly one has.
    fn xor by conthiral_xor;
    /// Unsets the bits that another has.
    fn and_not by conthiral_and_not;
}

/// Writes the calls that combine three bit vectors of one length.
macro_rules! combine_two {
    ($($(#[$doc:meta])* fn $name:ident by $call:ident;)*) => {
        impl<T, W: Words + AsMut<[u64]>> Bits<T, W> {
            $(
                $(#[$doc])*
                /// Returns whether a bit changed. Panics if the lengths differ.
                pub fn $name<F, S>(&mut self, first: &Bits<T, F>, second: &Bits<T, S>) -> bool
                where
                    F: Words,
                    S: Words,
                {
                    self.match_len(first);
                    self.match_len(second);
                    let (own, mut changed) = (self.vec.as_mut(), false);
                    let (first, second) = (first.words(), second.words());
                    ffi::done(unsafe {
                        ffi::$call(
                            own.as_mut_ptr(), own.len(), first.as_ptr(), first.len(),
                            second.as_ptr(), second.len(), self.len, &mut changed,
                        )
                    });
                    changed
                }
            )*
        }
    };
}

combine_two! {
    /// Sets the bits that two others both have.
    fn or_and by conthiral_or_and;
    /// Sets the bits that the first other has and the second hasn't.
    fn or_and_not by conthiral_or_and_not;
}

/// Writes the calls that compare two bit vectors of one length.
macro_rules! compare {
    ($($(#[$doc:meta])* fn $name:ident by $call:ident -> $type:ty;)*) => {
        impl<T, W: Words> Bits<T, W> {
            $(
                $(#[$doc])*
                /// Panics if the lengths differ.
                pub fn $name<O: Words>(&self, other: &Bits<T, O>) -> $type {
                    self.match_len(other);
                    let (own, other, mut result) = (self.words(), other.words(), <$type>::default());
                    ffi::done(unsafe {
                        ffi::$call(own.as_ptr(), own.len(), other.as_ptr(), other.len(), self.len, &mut result)
                    });
                    result
                }
            )*
        }
    };
}

compare! {
    /// Returns whether another has every bit that is set.
    fn is_subset by conthiral_is_subset -> bool;
    /// Returns whether no bit is set in both.
    fn is_disjoint by conthiral_is_disjoint -> bool;
    /// Returns how many bits are set in both.
    fn count_and by conthiral_count_and -> usize;
    /// Returns how many bits are set in either.
    fn count_or by conthiral_count_or -> usize;
    /// Returns how many bits are set in exactly one.
    fn count_xor by conthiral_count_xor -> usize;
    /// Returns how many bits are set here and not in another.
    fn count_and_not by conthiral_count_and_not -> usize;
}

impl<T, W: Words> Bits<T, W> {
    /// Returns whether every bit that another has is set. Panics if the lengths differ.
    pub fn is_superset<O: Words>(&self, other: &Bits<T, O>) -> bool {
        other.is_subset(self)
    }

    /// Returns the first index that both have at which they differ.
    pub fn first_difference<O: Words>(&self, other: &Bits<T, O>) -> Option<usize> {
        let with = other.words();
        let index = of_words!(self, conthiral_first_difference, 0, with.as_ptr(), with.len(), other.len);
        index_below(index, self.len.min(other.len))
    }
}
