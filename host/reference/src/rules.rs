//! The three kinds of book, as types: which mark a book ends in, which bytes are the
//! same letter, and where the numbers of a node stand. The code is compiled once for
//! each, so a plain book pays nothing for the others.

use crate::NODE;

/// A kind of book.
pub trait Rule: Copy {
    /// The last four bytes of a book.
    const MARK: [u8; 4];

    /// Whether several bytes can be one letter.
    const FOLDS: bool;

    /// How many bytes lie between a node and the next.
    const STRIDE: usize = NODE;

    /// How many bytes lie between a number of a node and its next, where there are so
    /// many nodes.
    #[inline(always)]
    fn step(_nodes: usize) -> usize {
        2
    }

    /// A byte as it is compared: bytes of one letter are one.
    fn letter(byte: usize) -> usize;

    /// Whether these bytes end in the mark.
    #[inline(always)]
    fn marks(book: &[u8]) -> bool {
        book.ends_with(&Self::MARK)
    }

    /// The symbol of a byte.
    #[inline(always)]
    fn symbol(byte: usize) -> usize {
        Self::letter(byte) + 1
    }
}

/// Every byte is a letter of its own.
#[derive(Clone, Copy)]
pub struct Plain;

/// As plain, with a column for each of a node's numbers.
#[derive(Clone, Copy)]
pub struct Columns;

/// Capitals are the letters of the bytes 32 higher.
#[derive(Clone, Copy)]
pub struct Folded;

impl Rule for Plain {
    const MARK: [u8; 4] = *b"NBK2";
    const FOLDS: bool = false;

    #[inline(always)]
    fn letter(byte: usize) -> usize {
        byte
    }
}

impl Rule for Columns {
    const MARK: [u8; 4] = *b"NBC2";
    const FOLDS: bool = false;
    const STRIDE: usize = 2;

    #[inline(always)]
    fn step(nodes: usize) -> usize {
        2 * nodes
    }

    #[inline(always)]
    fn letter(byte: usize) -> usize {
        byte
    }
}

impl Rule for Folded {
    const MARK: [u8; 4] = *b"NBF2";
    const FOLDS: bool = true;

    #[inline(always)]
    fn letter(byte: usize) -> usize {
        // What is not 65 to 90 wraps past 25 or stays above it.
        byte + 32 * usize::from(byte.wrapping_sub(65) < 26)
    }
}
