//! Tables of parsers, from grammars as yacc and bison read them, and parsing by them.

use crate::ffi;
use std::collections::HashMap;
use std::error::Error;
use std::fmt;

/// How many sizes a table has.
const SIZES: usize = 9;

/// The table of an LALR(1) parser. Symbols are numbers: those of terminals come first, 0 is the end of a text, and those
/// of nonterminals come after them.
///
/// ```
/// use conthiral::Table;
///
/// let table = Table::new("%left '+'  %left '*'  %% e: e '+' e | e '*' e | 'n';")?;
/// let tokens: Option<Vec<_>> = "n + n * n".split(' ').map(|name| table.terminal(name)).collect();
/// // `*` comes before `+`
/// assert_eq!(table.parse(&tokens.unwrap())?, [3, 3, 3, 2, 1]);
/// # Ok::<(), conthiral::TableError>(())
/// ```
#[derive(Clone, Debug)]
pub struct Table {
    terminals: usize,
    offsets: Vec<usize>,
    symbols: Vec<usize>,
    actions: Vec<usize>,
    left: Vec<usize>,
    lengths: Vec<usize>,
    // the right sides of all rules, and where that of each rule begins
    right: Vec<usize>,
    starts: Vec<usize>,
    names: Vec<String>,
    by_name: HashMap<String, usize>,
    // so many reductions suffice for a sentence, and so many more for each token
    base: usize,
    each: usize,
}

/// Why there is no table, or no parse.
#[derive(Clone, Copy, Debug, PartialEq, Eq)]
pub enum TableError {
    /// The library found no memory to work in, or the reductions would need more than there is.
    Memory,
    /// The text is no grammar: the line and the column where, counted from 1. A column is a byte of its line.
    Text { line: usize, column: usize },
    /// The parser doesn't take the token with an index, or the end if the index is the number of tokens.
    Unexpected { at: usize },
    /// The parser makes more reductions than suffice for a sentence: those of a grammar with a cycle may have no end.
    TooLong,
}

impl fmt::Display for TableError {
    fn fmt(&self, f: &mut fmt::Formatter<'_>) -> fmt::Result {
        match self {
            TableError::Memory => f.write_str("out of memory"),
            TableError::Text { line, column } => write!(f, "line {line}, column {column}: no grammar goes on so"),
            TableError::Unexpected { at } => write!(f, "token {at} doesn't fit"),
            TableError::TooLong => f.write_str("too many reductions"),
        }
    }
}

impl Error for TableError {}

/// Returns as many zeros. Fails if memory runs out.
fn zeros(count: usize) -> Result<Vec<usize>, TableError> {
    let mut made = Vec::new();
    made.try_reserve_exact(count).map_err(|_| TableError::Memory)?;
    made.resize(count, 0);
    Ok(made)
}

/// Fails if the library found no memory. The callers here meet all other conditions.
fn made(status: u8) -> Result<(), TableError> {
    if status == ffi::MEMORY {
        return Err(TableError::Memory);
    }
    ffi::done(status);
    Ok(())
}

/// Returns the names of so many symbols, which have so many bytes.
fn names_of(text: &str, symbols: usize, bytes: usize) -> Result<Vec<String>, TableError> {
    let (mut offsets, mut names) = (zeros(symbols + 1)?, vec![0; bytes]);
    made(unsafe {
        ffi::conthiral_table_names(
            text.as_ptr(),
            text.len(),
            offsets.as_mut_ptr(),
            offsets.len(),
            names.as_mut_ptr(),
            names.len(),
        )
    })?;
    let name = |pair: &[usize]| String::from_utf8_lossy(&names[pair[0]..pair[1]]).into_owned();
    Ok(offsets.windows(2).map(name).collect())
}

/// Returns the number of each terminal but the end, by its name and by the text that its name has in quotes.
fn numbers_of(names: &[String]) -> HashMap<String, usize> {
    let named = || names.iter().enumerate().skip(1);
    let quoted = named().filter(|(_, name)| name.len() > 2 && name.starts_with(['\'', '"']));
    let texts = quoted.map(|(at, name)| (name[1..name.len() - 1].to_string(), at));
    texts.chain(named().map(|(at, name)| (name.clone(), at))).collect()
}

impl Table {
    /// Returns the table of a grammar in the text of yacc and bison. Actions in braces are passed over. Where the grammar
    /// leaves a choice, a parser shifts, or else reduces by the lowest rule. Fails at the first word that can't stand
    /// where it does, or if memory runs out.
    ///
    /// ```
    /// use conthiral::{Table, TableError};
    ///
    /// assert_eq!(Table::new("%% list: item;").err(), Some(TableError::Text { line: 1, column: 10 }));
    /// ```
    pub fn new(text: &str) -> Result<Table, TableError> {
        let (mut sizes, mut line, mut column) = ([0; SIZES], 0, 0);
        let (bytes, length) = (text.as_ptr(), text.len());
        let status =
            unsafe { ffi::conthiral_table_sizes(bytes, length, sizes.as_mut_ptr(), SIZES, &mut line, &mut column) };
        if status == ffi::TEXT {
            return Err(TableError::Text { line, column });
        }
        made(status)?;
        let [terminals, nonterminals, states, entries, rules, symbols, name_bytes, base, each] = sizes;
        let names = names_of(text, terminals + nonterminals, name_bytes)?;
        let mut table = Table {
            terminals,
            offsets: zeros(states + 1)?,
            symbols: zeros(entries)?,
            actions: zeros(entries)?,
            left: zeros(rules)?,
            lengths: zeros(rules)?,
            right: zeros(symbols)?,
            starts: Vec::new(),
            by_name: numbers_of(&names[..terminals]),
            names,
            base,
            each,
        };
        made(unsafe {
            ffi::conthiral_table(
                bytes,
                length,
                table.offsets.as_mut_ptr(),
                states + 1,
                table.symbols.as_mut_ptr(),
                entries,
                table.actions.as_mut_ptr(),
                entries,
                table.left.as_mut_ptr(),
                rules,
                table.lengths.as_mut_ptr(),
                rules,
                table.right.as_mut_ptr(),
                symbols,
                &mut table.terminals,
            )
        })?;
        let ends = table.lengths.iter().scan(0, |end, length| {
            *end += length;
            Some(*end)
        });
        table.starts = std::iter::once(0).chain(ends).collect();
        Ok(table)
    }

    /// Returns how many terminals there are. The symbols from this number on are nonterminals.
    #[inline]
    pub fn terminals(&self) -> usize {
        self.terminals
    }

    /// Returns how many rules there are. Rule 0 derives the start symbol and the end.
    #[inline]
    pub fn rules(&self) -> usize {
        self.left.len()
    }

    /// Returns the symbol on the left side of a rule, and those on its right side. Panics if there is no such rule.
    ///
    /// ```
    /// use conthiral::Table;
    ///
    /// let table = Table::new("%% list: %empty | list 'x';")?;
    /// let (left, right) = table.rule(2);
    /// assert_eq!((table.name(left), right), ("list", &[left, table.terminal("x").unwrap()][..]));
    /// # Ok::<(), conthiral::TableError>(())
    /// ```
    pub fn rule(&self, rule: usize) -> (usize, &[usize]) {
        (self.left[rule], &self.right[self.starts[rule]..self.starts[rule + 1]])
    }

    /// Returns the name of a symbol. That of a terminal is its text in quotes if it has one. Panics if there is no such
    /// symbol.
    pub fn name(&self, symbol: usize) -> &str {
        &self.names[symbol]
    }

    /// Returns the terminal that has a name, or has it as its text in quotes, unless that is the end.
    pub fn terminal(&self, name: &str) -> Option<usize> {
        self.by_name.get(name).copied()
    }

    /// Parses tokens, each the number of a terminal, without the end. Returns the rules by which the parser reduces, in
    /// their order: read backwards, they are the rightmost derivation of the tokens.
    ///
    /// Fails with the first token that the parser doesn't take, if it makes more reductions than suffice for a sentence of
    /// so many tokens, or if memory runs out, as it does if no number is known to suffice.
    ///
    /// ```
    /// use conthiral::{Table, TableError};
    ///
    /// let table = Table::new("%% list: %empty | list 'x';")?;
    /// let [x, error] = ["x", "error"].map(|name| table.terminal(name).unwrap());
    /// assert_eq!(table.parse(&[x, x])?, [1, 2, 2]);
    /// assert_eq!(table.parse(&[x, error]), Err(TableError::Unexpected { at: 1 }));
    /// # Ok::<(), TableError>(())
    /// ```
    pub fn parse(&self, tokens: &[usize]) -> Result<Vec<usize>, TableError> {
        let mut reductions = zeros(self.each.saturating_mul(tokens.len()).saturating_add(self.base))?;
        let (mut count, mut at) = (0, 0);
        let status = unsafe {
            ffi::conthiral_parse(
                self.terminals,
                self.offsets.as_ptr(),
                self.offsets.len(),
                self.symbols.as_ptr(),
                self.symbols.len(),
                self.actions.as_ptr(),
                self.actions.len(),
                self.left.as_ptr(),
                self.left.len(),
                self.lengths.as_ptr(),
                self.lengths.len(),
                tokens.as_ptr(),
                tokens.len(),
                reductions.as_mut_ptr(),
                reductions.len(),
                &mut count,
                &mut at,
            )
        };
        match status {
            ffi::TOKEN => return Err(TableError::Unexpected { at }),
            ffi::LENGTH => return Err(TableError::TooLong),
            _ => made(status)?,
        }
        reductions.truncate(count);
        Ok(reductions)
    }
}
