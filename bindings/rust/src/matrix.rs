//! Matrices of bits, as the edges of a graph.

use crate::bits::{past, Bits, Words, WORD};
use crate::ffi;

/// A matrix of bits in words, one row after another. Each row begins with a word of its own. Bit `j` of row `i`
/// says whether an edge leads from node `i` to node `j`.
///
/// ```
/// use conthiral::BitMatrix;
///
/// let mut leads = BitMatrix::from_edges(4, [(0, 1), (1, 2)]);
/// assert!(leads.close());
/// assert_eq!(leads.row(0).iter_set_bits(..).collect::<Vec<_>>(), [1, 2]);
/// assert!(!leads.close());
/// ```
#[derive(Clone, Debug, PartialEq, Eq, Hash)]
pub struct BitMatrix {
    // as many words as the rows need; the places past the last column are 0
    pub(crate) words: Vec<u64>,
    rows: usize,
    columns: usize,
}

impl BitMatrix {
    /// Returns a matrix of bits that are false. Panics if no number counts its words.
    pub fn new(rows: usize, columns: usize) -> BitMatrix {
        let count = rows.checked_mul(columns.div_ceil(WORD)).expect("Overflow detected");
        BitMatrix { words: vec![0; count], rows, columns }
    }

    /// Returns the matrix of `size` rows and columns in which some bits are true. Panics if one is past the last
    /// row or column.
    pub fn from_edges<I: IntoIterator<Item = (usize, usize)>>(size: usize, edges: I) -> BitMatrix {
        let mut matrix = BitMatrix::new(size, size);
        for (row, column) in edges {
            matrix.set(row, column, true);
        }
        matrix
    }

    /// Returns the matrix in words, or the words if their number isn't what the rows need, or if a bit past the
    /// last column is set.
    pub fn from_words(words: Vec<u64>, rows: usize, columns: usize) -> Result<BitMatrix, Vec<u64>> {
        let width = columns.div_ceil(WORD);
        let past = columns % WORD;
        let is_canonical = past == 0 || words.chunks(width).all(|row| row[row.len() - 1] >> past == 0);
        if rows.checked_mul(width) != Some(words.len()) || !is_canonical {
            return Err(words);
        }
        Ok(BitMatrix { words, rows, columns })
    }

    /// Returns the number of rows.
    #[inline]
    pub fn rows(&self) -> usize {
        self.rows
    }

    /// Returns the number of columns.
    #[inline]
    pub fn columns(&self) -> usize {
        self.columns
    }

    /// Returns the words, those of the first row first.
    #[inline]
    pub fn words(&self) -> &[u64] {
        &self.words
    }

    /// Returns the words of a row. Panics if it is past the last one.
    #[inline]
    pub fn row_words(&self, row: usize) -> &[u64] {
        let width = self.columns.div_ceil(WORD);
        if row >= self.rows {
            past(self.rows, row);
        }
        &self.words[row * width..(row + 1) * width]
    }

    /// Returns the bits of a row, in the words of the matrix. Panics if it is past the last one.
    pub fn row(&self, row: usize) -> Bits<usize, &[u64]> {
        Bits::from_words(self.row_words(row), self.columns).expect("a row is canonical")
    }

    /// Returns the bits of a row, to be written. Panics if it is past the last one.
    ///
    /// ```
    /// let mut matrix = conthiral::BitMatrix::new(2, 100);
    /// matrix.row_mut(1).set_range(..70, true);
    /// assert_eq!(matrix.row(1).count_ones(), 70);
    /// ```
    pub fn row_mut(&mut self, row: usize) -> Bits<usize, &mut [u64]> {
        let width = self.columns.div_ceil(WORD);
        if row >= self.rows {
            past(self.rows, row);
        }
        Bits::from_words(&mut self.words[row * width..(row + 1) * width], self.columns).expect("a row is canonical")
    }

    /// Returns the bit of a row and a column, or `None` if one of them is past the last one.
    #[inline]
    pub fn get(&self, row: usize, column: usize) -> Option<bool> {
        if row >= self.rows || column >= self.columns {
            return None;
        }
        Some(self.words[self.place(row, column)] >> (column % WORD) & 1 == 1)
    }

    /// Writes the bit of a row and a column, and returns whether it changed. Panics if one of them is past the
    /// last one.
    #[inline]
    pub fn set(&mut self, row: usize, column: usize, value: bool) -> bool {
        if row >= self.rows {
            past(self.rows, row);
        }
        if column >= self.columns {
            past(self.columns, column);
        }
        let place = self.place(row, column);
        crate::bits::write(&mut self.words[place], column, value)
    }

    /// Returns the number of the word in which a bit stands.
    #[inline]
    fn place(&self, row: usize, column: usize) -> usize {
        row * self.columns.div_ceil(WORD) + column / WORD
    }

    /// Sets bit `j` of row `i` wherever a path of one edge or more leads from node `i` to node `j`. Returns whether
    /// a bit changed: if none did, the relation was transitive. Panics unless there are as many rows as columns.
    pub fn close(&mut self) -> bool {
        assert_eq!(self.rows, self.columns, "a matrix that is closed has as many rows as columns");
        let mut changed = false;
        ffi::done(unsafe { ffi::conthiral_close(self.words.as_mut_ptr(), self.words.len(), self.rows, &mut changed) });
        changed
    }

    /// Returns the set of the nodes of a set, and of all to which paths of edges lead from them. Panics unless there
    /// are as many rows as columns, and as many bits in the set.
    pub fn reach<W: Words>(&self, from: &Bits<usize, W>) -> Bits {
        assert_eq!(self.rows, self.columns, "paths lead through a matrix with as many rows as columns");
        assert_eq!(self.rows, from.len(), "a set of nodes has as many bits as there are rows");
        let mut reached = from.to_vob();
        let mut turned = vec![0; reached.vec.len()];
        let words = reached.vec.as_mut_ptr();
        ffi::done(unsafe {
            ffi::conthiral_reach(
                self.words.as_ptr(),
                self.words.len(),
                self.rows,
                words,
                reached.vec.len(),
                turned.as_mut_ptr(),
                turned.len(),
            )
        });
        reached
    }

    /// Returns the matrix with rows and columns exchanged.
    pub fn transpose(&self) -> BitMatrix {
        let mut made = BitMatrix::new(self.columns, self.rows);
        let words = made.words.as_mut_ptr();
        ffi::done(unsafe {
            let (from, count) = (self.words.as_ptr(), self.words.len());
            ffi::conthiral_transpose(from, count, self.rows, self.columns, words, made.words.len())
        });
        made
    }

    /// Returns the Boolean product: bit `j` of row `i` is set if bit `k` of row `i` is here and bit `j` of row `k`
    /// in another, for some `k`. Panics unless the other has as many rows as there are columns here.
    pub fn product(&self, other: &BitMatrix) -> BitMatrix {
        assert_eq!(self.columns, other.rows, "the second matrix has as many rows as the first has columns");
        let mut made = BitMatrix::new(self.rows, other.columns);
        let words = made.words.as_mut_ptr();
        ffi::done(unsafe {
            ffi::conthiral_product(
                self.words.as_ptr(),
                self.words.len(),
                self.rows,
                self.columns,
                other.words.as_ptr(),
                other.words.len(),
                other.columns,
                words,
                made.words.len(),
            )
        });
        made
    }
}
