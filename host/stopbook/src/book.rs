//! A book that was read and accepted.

use crate::files;
use crate::layout::{self, Node, Trailer};
use crate::outcome::Failure;
use crate::progress::Progress;
use crate::text::{counted, grouped};
use mistrogu::{BookKind, LONGEST_BOOK, LONGEST_NAME};
use std::ffi::OsStr;
use std::ops::Range;

/// The bytes of a book that the library has accepted, and the names that were
/// read back so far: each call of the library checks the whole book, so no
/// name is read twice.
pub struct Book {
    bytes: Vec<u8>,
    source: String,
    names: usize,
    block: usize,
    kind: BookKind,
    trailer: Trailer,
    known: Vec<Option<Vec<u8>>>,
}

impl Book {
    /// Reads a file, or standard input, and checks it.
    pub fn open(path: &OsStr) -> Result<Book, Failure> {
        let source = files::input_name(path);
        Book::of(read(path)?, source.clone())
            .map_err(|why| Failure::refused(format!("{source} is no book: {why}")))
    }

    /// Checks these bytes: a book, or why they are none.
    pub fn of(bytes: Vec<u8>, source: String) -> Result<Book, String> {
        let checked = mistrogu::check(&bytes);
        let (Ok(checked), Some(trailer)) = (checked, layout::trailer(&bytes)) else {
            return Err(layout::why_no_book(&bytes));
        };
        Ok(Book {
            source,
            names: checked.names,
            block: checked.block,
            kind: checked.kind,
            trailer,
            known: vec![None; checked.names],
            bytes,
        })
    }

    /// Its bytes.
    pub fn bytes(&self) -> &[u8] {
        &self.bytes
    }

    /// What messages call it.
    pub fn source(&self) -> &str {
        &self.source
    }

    /// How many names it has.
    pub fn names(&self) -> usize {
        self.names
    }

    /// Its block size.
    pub fn block(&self) -> usize {
        self.block
    }

    /// Its kind.
    pub fn kind(&self) -> BookKind {
        self.kind
    }

    /// The column book of a plain one, and the plain book of a column one. There is
    /// none of a folded book.
    pub fn converted(&self) -> Result<Book, Failure> {
        let mut room = vec![0; self.bytes.len()];
        let source = self.source.clone();
        let converted = match self.kind {
            BookKind::Plain => mistrogu::to_columns(&self.bytes, &mut room),
            BookKind::Columns => mistrogu::from_columns(&self.bytes, &mut room),
            BookKind::Folded => {
                return Err(Failure::refused(format!(
                    "{source} is a folded book, and only plain books and column books can be \
                     converted; stopbook build makes a plain one from its names"
                )))
            }
        };
        converted.map_err(|refusal| Failure::refused(format!("{source}: {refusal}")))?;
        Book::of(room, source.clone())
            .map_err(|why| Failure::refused(format!("{source}: what was made is no book: {why}")))
    }

    /// What a sentence says of it: how many names, nodes and bytes it has.
    pub fn numbers(&self) -> String {
        let names = counted(self.names, "name");
        let nodes = counted(self.trailer.nodes, "node");
        let bytes = counted(self.bytes.len(), "byte");
        format!("{names} in blocks of {}, {nodes}, {bytes}", self.block)
    }

    /// The numbers of its trailer.
    pub fn trailer(&self) -> &Trailer {
        &self.trailer
    }

    /// The name at a position.
    pub fn name(&mut self, position: usize) -> Result<&[u8], Failure> {
        let Some(known) = self.known.get_mut(position) else {
            let (source, position) = (&self.source, grouped(position));
            let text = format!("{source} has no position {position}");
            return Err(Failure::refused(text));
        };
        match known {
            Some(name) => Ok(name),
            unknown => {
                let mut room = [0; LONGEST_NAME];
                let name = mistrogu::read(&self.bytes, position, &mut room)
                    .map_err(|refusal| Failure::refused(format!("{}: {refusal}", self.source)))?;
                Ok(unknown.insert(name.to_vec()))
            }
        }
    }

    /// Reads the names at these positions, and says how far that is.
    pub fn learn(&mut self, positions: Range<usize>) -> Result<(), Failure> {
        let mut progress = Progress::begin("names read:");
        let (start, all) = (positions.start, positions.len());
        for position in positions {
            self.name(position)?;
            progress.step(position - start, all);
        }
        Ok(())
    }

    /// The stored count of each entry.
    pub fn stored_counts(&self) -> Result<Vec<usize>, Failure> {
        layout::stored_counts(&self.bytes, self.names).ok_or_else(|| self.unreadable("entries"))
    }

    /// The node table.
    pub fn nodes(&self) -> Result<Vec<Node>, Failure> {
        layout::nodes(&self.bytes, self.kind, &self.trailer).ok_or_else(|| self.unreadable("nodes"))
    }

    /// A part that an accepted book always has.
    fn unreadable(&self, part: &str) -> Failure {
        Failure::refused(format!("{}: its {part} cannot be read", self.source))
    }

    /// The first line of document 01's listing, for people.
    pub fn headline(&self) -> String {
        let numbers = [self.names, self.block, self.trailer.nodes, self.bytes.len()];
        let [names, block, nodes, bytes] = numbers.map(grouped);
        format!("names {names} block {block} nodes {nodes} bytes {bytes}")
    }
}

/// Reads what is to be a book: at most one byte more than a book can have.
pub fn read(path: &OsStr) -> Result<Vec<u8>, Failure> {
    files::read(path, LONGEST_BOOK as u64 + 1)
}
