//! Bit vectors under the names of the crate `vob`, whose calls on words are proved.
//!
//! A program that uses `vob::Vob` takes `conthiral::Vob` instead. The calls on more than one bit go to
//! `libconthiral`, whose contracts are proved: `conthiral.h` says what each does. What reads or writes single
//! bits is plain Rust, here: `get`, `set`, `push`, `pop`, the walks, and what stands on these. So are lengths
//! and storage, what puts the edges of a graph into arrays, and the names of a table.
//!
//! ```
//! use conthiral::{vob, Vob};
//!
//! let mut seen = Vob::from_elem(false, 100);
//! seen.set(7, true);
//! assert!(seen.or(&Vob::from_elem(true, 100)));
//! assert_eq!(seen.count_ones(), 100);
//! assert_eq!(vob![true, false, true].iter_set_bits(..).collect::<Vec<_>>(), [0, 2]);
//! ```

mod bits;
mod ffi;
mod graph;
mod iter;
mod matrix;
mod ops;
#[cfg(feature = "serde")]
mod record;
mod table;
mod words;

#[cfg(not(target_pointer_width = "64"))]
compile_error!("libconthiral is for processors of 64 bits");

pub use bits::{Bits, Block, Words};
pub use graph::{Graph, GraphError, Masks};
pub use iter::{Iter, IterSetBits, IterUnsetBits, StorageIter};
pub use matrix::BitMatrix;
pub use table::{Table, TableError};

/// A bit vector in words of its own, by the name that it has in the crate `vob`.
pub type Vob<T = usize> = Bits<T>;

/// Makes a bit vector of the values of its bits, or of one value and a length.
///
/// ```
/// use conthiral::vob;
///
/// assert_eq!(vob![true; 3], vob![true, true, true]);
/// ```
#[macro_export]
macro_rules! vob {
    ($value:expr; $len:expr) => {
        $crate::Vob::from_elem($value, $len)
    };
    ($($value:expr),* $(,)?) => {
        {
            #[allow(unused_mut)]
            let mut bits = $crate::Vob::new();
            $(bits.push($value);)*
            bits
        }
    };
}

#[cfg(doctest)]
#[doc = include_str!("../README.md")]
struct Readme;

/// The examples of vob 4.0.1.
#[cfg(all(doctest, vob_examples))]
#[doc = include_str!(env!("CONTHIRAL_VOB_EXAMPLES"))]
struct Examples;

#[cfg(all(test, vob_tests))]
use bits::{block_offset, blocks_required};

#[cfg(all(test, vob_tests))]
include!(env!("CONTHIRAL_VOB_TESTS"));
