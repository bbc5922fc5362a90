//! Traits of the standard library.

use crate::bits::{Bits, Words};
use std::cmp::Ordering;
use std::fmt;
use std::hash::{Hash, Hasher};
use std::ops::{BitAnd, BitAndAssign, BitOr, BitOrAssign, BitXor, BitXorAssign, Index, Not, Sub, SubAssign};

impl<T> Default for Bits<T> {
    fn default() -> Bits<T> {
        Bits::new_with_storage_type(0)
    }
}

impl<T, W: Words> fmt::Debug for Bits<T, W> {
    fn fmt(&self, f: &mut fmt::Formatter<'_>) -> fmt::Result {
        f.write_str("Vob[")?;
        for bit in self {
            f.write_str(if bit { "1" } else { "0" })?;
        }
        f.write_str("]")
    }
}

impl<T, W: Words, O: Words> PartialEq<Bits<T, O>> for Bits<T, W> {
    fn eq(&self, other: &Bits<T, O>) -> bool {
        self.len == other.len && self.words() == other.words()
    }
}

impl<T, W: Words> Eq for Bits<T, W> {}

/// As lists of bits: the first bit that differs decides, and else the length.
impl<T, W: Words> Ord for Bits<T, W> {
    fn cmp(&self, other: &Bits<T, W>) -> Ordering {
        match self.first_difference(other) {
            Some(index) => self.get(index).cmp(&other.get(index)),
            None => self.len.cmp(&other.len),
        }
    }
}

impl<T, W: Words> PartialOrd for Bits<T, W> {
    fn partial_cmp(&self, other: &Bits<T, W>) -> Option<Ordering> {
        Some(self.cmp(other))
    }
}

impl<T, W: Words> Hash for Bits<T, W> {
    fn hash<H: Hasher>(&self, state: &mut H) {
        self.len.hash(state);
        self.words().hash(state);
    }
}

impl<T, W: Words> Index<usize> for Bits<T, W> {
    type Output = bool;

    #[inline]
    fn index(&self, index: usize) -> &bool {
        match self.get(index) {
            Some(true) => &true,
            Some(false) => &false,
            None => panic!("index out of bounds: the len is {} but the index is {index}", self.len),
        }
    }
}

impl<T> Extend<bool> for Bits<T> {
    fn extend<I: IntoIterator<Item = bool>>(&mut self, bits: I) {
        let bits = bits.into_iter();
        self.reserve(bits.size_hint().0);
        for bit in bits {
            self.push(bit);
        }
    }
}

impl FromIterator<bool> for Bits<usize> {
    fn from_iter<I: IntoIterator<Item = bool>>(bits: I) -> Bits<usize> {
        let mut all = Bits::new();
        all.extend(bits);
        all
    }
}

impl<T, W: Words> Not for &Bits<T, W> {
    type Output = Bits<T>;

    fn not(self) -> Bits<T> {
        let mut bits = self.to_vob();
        bits.negate();
        bits
    }
}

/// Writes the operators `&`, `|`, `^` and `-`. They panic if the lengths differ.
macro_rules! operators {
    ($($trait:ident $name:ident $assign_trait:ident $assign:ident by $call:ident;)*) => {
        $(
            impl<T, W: Words + AsMut<[u64]>, O: Words> $assign_trait<&Bits<T, O>> for Bits<T, W> {
                fn $assign(&mut self, other: &Bits<T, O>) {
                    self.$call(other);
                }
            }

            impl<T, W: Words + AsMut<[u64]>, O: Words> $trait<&Bits<T, O>> for Bits<T, W> {
                type Output = Bits<T, W>;

                fn $name(mut self, other: &Bits<T, O>) -> Bits<T, W> {
                    self.$call(other);
                    self
                }
            }

            impl<T, W: Words, O: Words> $trait<&Bits<T, O>> for &Bits<T, W> {
                type Output = Bits<T>;

                fn $name(self, other: &Bits<T, O>) -> Bits<T> {
                    self.to_vob().$name(other)
                }
            }
        )*
    };
}

operators! {
    BitAnd bitand BitAndAssign bitand_assign by and;
    BitOr bitor BitOrAssign bitor_assign by or;
    BitXor bitxor BitXorAssign bitxor_assign by xor;
    Sub sub SubAssign sub_assign by and_not;
}
