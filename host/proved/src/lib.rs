//! Safe Rust over the proved library.
//!
//! The library is an archive of C functions that are proved to take any bytes
//! and any numbers. Here each of them gets a function with slices, which asks
//! nothing of its caller either. Nothing here needs a heap or the standard
//! library. Which archive is linked says the variable `MISTROGU_ARCHIVE` while
//! this crate is compiled.
//!
//! Another call is one declaration in [`raw`] and one function below.

#![no_std]
#![warn(missing_docs)]

pub mod raw;

/// What every call gives back but [`list_head`] and the five questions, and what
/// an answer row of a batch holds, as the archive lays it out.
#[repr(C)]
#[derive(Clone, Copy, Debug, PartialEq, Eq, Default)]
pub struct Answer {
    /// 0 where the call is accepted, else the number of the refusal.
    pub code: usize,
    /// The first number of the answer.
    pub first: usize,
    /// The second number of the answer.
    pub second: usize,
}

/// What a single question gives back, as the archive lays it out: an answer's
/// three numbers, and how far it looked.
#[repr(C)]
#[derive(Clone, Copy, Debug, PartialEq, Eq, Default)]
pub struct Counted {
    /// 0 where the question is accepted, else the number of the refusal.
    pub code: usize,
    /// The first number of the answer.
    pub first: usize,
    /// The second number of the answer.
    pub second: usize,
    /// How many nodes were visited going down, root and last node counted.
    pub visits: usize,
    /// How many entries were read to rebuild the one name compared.
    pub entries: usize,
}

impl Counted {
    /// The three numbers, as a batch gives them.
    pub fn answer(self) -> Answer {
        Answer {
            code: self.code,
            first: self.first,
            second: self.second,
        }
    }
}

/// A question row of a batch, as the archive lays it out.
#[repr(C)]
#[derive(Clone, Copy, Debug, PartialEq, Eq, Default)]
pub struct Row {
    /// 1 exact, 2 place, 3 range, 4 nearest, 5 width.
    pub kind: usize,
    /// Where the question begins in the buffer.
    pub start: usize,
    /// How many bytes the question has.
    pub length: usize,
}

/// A report row of a salvage, as the archive lays it out.
#[repr(C)]
#[derive(Clone, Copy, Debug, PartialEq, Eq, Default)]
pub struct Kept {
    /// 1 where the block is kept, 0 where it is dropped.
    pub kept: usize,
    /// How many names of it are written.
    pub names: usize,
}

/// A head of two lists: a name without its length byte, as a part of the list
/// that it stands in, as the archive lays it out.
#[repr(C)]
#[derive(Clone, Copy, Debug, PartialEq, Eq)]
pub struct Head {
    /// 1 for the first list, 2 for the second.
    pub list: usize,
    /// Where its first byte is in that list.
    pub start: usize,
    /// How many bytes it has; none where there is no head.
    pub length: usize,
}

/// Builds a plain book from list records into the room: (0, its length, 0), or a
/// refusal, and then the room is as it was.
pub fn book_build(list: &[u8], block: usize, room: &mut [u8]) -> Answer {
    // SAFETY: each pointer comes with the length of its own slice. The room is
    // borrowed for this call alone, so it does not overlap the list.
    unsafe {
        raw::book_build(
            list.as_ptr(),
            list.len(),
            block,
            room.as_mut_ptr(),
            room.len(),
        )
    }
}

/// Builds a folded book, in which capitals and small letters are the same: as
/// [`book_build`], with refusal 6 also for names that are equal once folded.
pub fn book_build_folded(list: &[u8], block: usize, room: &mut [u8]) -> Answer {
    // SAFETY: each pointer comes with the length of its own slice. The room is
    // borrowed for this call alone, so it does not overlap the list.
    unsafe {
        raw::book_build_folded(
            list.as_ptr(),
            list.len(),
            block,
            room.as_mut_ptr(),
            room.len(),
        )
    }
}

/// Checks a book of any kind: (0, how many names it has, its block size), or
/// refusal 2.
pub fn book_check(book: &[u8]) -> Answer {
    // SAFETY: the pointer comes with the length of its own slice, and nothing
    // is written.
    unsafe { raw::book_check(book.as_ptr(), book.len()) }
}

/// Reads the name at this position into the room: (0, its length, 0), or
/// refusal 2, 3 or 4, and then the room is as it was.
pub fn book_read(book: &[u8], position: usize, room: &mut [u8]) -> Answer {
    // SAFETY: each pointer comes with the length of its own slice. The room is
    // borrowed for this call alone, so it does not overlap the book.
    unsafe {
        raw::book_read(
            book.as_ptr(),
            book.len(),
            position,
            room.as_mut_ptr(),
            room.len(),
        )
    }
}

/// Asks for the name that equals the question: (0, its position, 1), or
/// (0, 0, 0) where there is none, or refusal 2 or 1.
pub fn book_exact(book: &[u8], question: &[u8]) -> Counted {
    // SAFETY: each pointer comes with the length of its own slice, and nothing
    // is written.
    unsafe { raw::book_exact(book.as_ptr(), book.len(), question.as_ptr(), question.len()) }
}

/// Asks how many names are less than the question: (0, their number, 0), or
/// refusal 2 or 1.
pub fn book_place(book: &[u8], question: &[u8]) -> Counted {
    // SAFETY: each pointer comes with the length of its own slice, and nothing
    // is written.
    unsafe { raw::book_place(book.as_ptr(), book.len(), question.as_ptr(), question.len()) }
}

/// Asks which names begin with the question: (0, the question's place, their
/// number), or refusal 2 or 1.
pub fn book_range(book: &[u8], question: &[u8]) -> Counted {
    // SAFETY: each pointer comes with the length of its own slice, and nothing
    // is written.
    unsafe { raw::book_range(book.as_ptr(), book.len(), question.as_ptr(), question.len()) }
}

/// Asks for a name that shares most with the question: (0, its position, how
/// many leading bytes of the question to light), or refusal 2, 1 or 10.
pub fn book_nearest(book: &[u8], question: &[u8]) -> Counted {
    // SAFETY: each pointer comes with the length of its own slice, and nothing
    // is written.
    unsafe { raw::book_nearest(book.as_ptr(), book.len(), question.as_ptr(), question.len()) }
}

/// Asks how long the longest name is that begins with the question: (0, its
/// length, 0), with length 0 where no name does, or refusal 2 or 1.
pub fn book_width(book: &[u8], question: &[u8]) -> Counted {
    // SAFETY: each pointer comes with the length of its own slice, and nothing
    // is written.
    unsafe { raw::book_width(book.as_ptr(), book.len(), question.as_ptr(), question.len()) }
}

/// Asks a batch: (0, how many rows it has, 0), and each answer row has the three
/// numbers that its row's question alone would get, or refusal 11; or refusal 12
/// or 2, and then the answer rows are as they were.
pub fn book_batch(book: &[u8], questions: &[u8], rows: &[Row], answers: &mut [Answer]) -> Answer {
    // SAFETY: each pointer comes with the length of its own slice, and both
    // structs are laid out as the archive's. The answers are borrowed for this
    // call alone, so they do not overlap the rest.
    unsafe {
        raw::book_batch(
            book.as_ptr(),
            book.len(),
            questions.as_ptr(),
            questions.len(),
            rows.as_ptr(),
            rows.len(),
            answers.as_mut_ptr(),
            answers.len(),
        )
    }
}

/// Turns a plain book into the column book of the same names, in the room: (0, its
/// length, 0), or refusal 2 or 4, and then the room is as it was.
pub fn book_to_columns(book: &[u8], room: &mut [u8]) -> Answer {
    // SAFETY: each pointer comes with the length of its own slice. The room is
    // borrowed for this call alone, so it does not overlap the book.
    unsafe { raw::book_to_columns(book.as_ptr(), book.len(), room.as_mut_ptr(), room.len()) }
}

/// Turns a column book into the plain book of the same names, in the room: (0, its
/// length, 0), or refusal 2 or 4, and then the room is as it was.
pub fn book_from_columns(book: &[u8], room: &mut [u8]) -> Answer {
    // SAFETY: each pointer comes with the length of its own slice. The room is
    // borrowed for this call alone, so it does not overlap the book.
    unsafe { raw::book_from_columns(book.as_ptr(), book.len(), room.as_mut_ptr(), room.len()) }
}

/// Salvages the names of a damaged book's sound blocks into the room, as list
/// records: (0, how many bytes are written, 0), and each report row says what
/// became of its block; or refusal 13, 12 or 4, and then the room and the rows are
/// as they were.
pub fn book_salvage(data: &[u8], room: &mut [u8], report: &mut [Kept]) -> Answer {
    // SAFETY: each pointer comes with the length of its own slice, and the struct
    // is laid out as the archive's. The room and the rows are borrowed for this
    // call alone, so they overlap neither the data nor each other.
    unsafe {
        raw::book_salvage(
            data.as_ptr(),
            data.len(),
            room.as_mut_ptr(),
            room.len(),
            report.as_mut_ptr(),
            report.len(),
        )
    }
}

/// Merges two lists into the room, a name in both once: (0, how many bytes are
/// written, 0); or refusal 5 or 6 with the record's number and the list's, 1 or 2;
/// or (7, 2000, 0) or (4, 0, 0), and then the room is as it was.
pub fn list_merge(first: &[u8], second: &[u8], room: &mut [u8]) -> Answer {
    // SAFETY: each pointer comes with the length of its own slice. The room is
    // borrowed for this call alone, so it does not overlap the lists.
    unsafe {
        raw::list_merge(
            first.as_ptr(),
            first.len(),
            second.as_ptr(),
            second.len(),
            room.as_mut_ptr(),
            room.len(),
        )
    }
}

/// Judges two lists: (0, 0, 0), or refusal 5 or 6 with the record's number and
/// the list's, 1 or 2.
pub fn list_judge(first: &[u8], second: &[u8]) -> Answer {
    // SAFETY: each pointer comes with the length of its own slice, and nothing
    // is written.
    unsafe { raw::list_judge(first.as_ptr(), first.len(), second.as_ptr(), second.len()) }
}

/// Shows the lesser of the two heads behind so many passed records of each list;
/// of equal heads the first list's, and of a list that has no more the other's.
/// It is (1, 0, 0), the empty part, where both have no more, and where
/// [`list_judge`] refuses a list. Linear in the bytes of both lists.
pub fn list_head(first: &[u8], second: &[u8], passed_first: usize, passed_second: usize) -> Head {
    // SAFETY: each pointer comes with the length of its own slice, and nothing
    // is written.
    unsafe {
        raw::list_head(
            first.as_ptr(),
            first.len(),
            second.as_ptr(),
            second.len(),
            passed_first,
            passed_second,
        )
    }
}

/// Gives the clip for a text: (0, 1, the clip) of the name that equals it, or else of
/// the only name that begins with it; (0, 0, how many names begin with it) where
/// there is neither; or refusal 2, 16 or 1.
pub fn announce_clip(book: &[u8], clips: &[u16], text: &[u8]) -> Answer {
    // SAFETY: each pointer comes with the length of its own slice and is aligned as
    // that is, and nothing is written.
    unsafe {
        raw::announce_clip(
            book.as_ptr(),
            book.len(),
            clips.as_ptr(),
            clips.len(),
            text.as_ptr(),
            text.len(),
        )
    }
}

/// Writes the clips of a route into the room, in its order: (0, how many bytes are
/// written, 0), two for each position; or refusal 2, 16, 12, 3 with the place of the
/// first bad position, or 4, and then the room is as it was.
pub fn announce_route(book: &[u8], clips: &[u16], positions: &[usize], room: &mut [u16]) -> Answer {
    // SAFETY: each pointer comes with the length of its own slice and is aligned as
    // that is. The room is borrowed for this call alone, so it does not overlap the
    // rest.
    unsafe {
        raw::announce_route(
            book.as_ptr(),
            book.len(),
            clips.as_ptr(),
            clips.len(),
            positions.as_ptr(),
            positions.len(),
            room.as_mut_ptr(),
            room.len(),
        )
    }
}
