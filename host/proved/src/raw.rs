//! The functions of the archive as C knows them: a slice is a pointer and then
//! a length.
//!
//! An answer and a head are structs of three words, and what a single question
//! gives is one of five, which C hands over in a way of its own on each processor,
//! and Rust in the same. On x86-64 the library is compiled so; where it is compiled
//! for another processor, for tests and benchmarks, `native.c` stands between.
//!
//! # Safety
//!
//! Every pointer must be aligned for its items and good for as many of them as the
//! length after it says, and what is written to may overlap nothing else.

use crate::{Answer, Counted, Head, Kept, Row};

extern "C" {
    /// Builds a plain book from list records.
    pub fn book_build(
        list: *const u8,
        list_len: usize,
        block: usize,
        room: *mut u8,
        room_len: usize,
    ) -> Answer;
    /// Builds a folded book from list records.
    pub fn book_build_folded(
        list: *const u8,
        list_len: usize,
        block: usize,
        room: *mut u8,
        room_len: usize,
    ) -> Answer;
    /// Checks a book of any kind.
    pub fn book_check(book: *const u8, book_len: usize) -> Answer;
    /// Reads a name back by its position.
    pub fn book_read(
        book: *const u8,
        book_len: usize,
        position: usize,
        room: *mut u8,
        room_len: usize,
    ) -> Answer;
    /// Asks for the name that equals a question.
    pub fn book_exact(
        book: *const u8,
        book_len: usize,
        question: *const u8,
        question_len: usize,
    ) -> Counted;
    /// Asks how many names are less than a question.
    pub fn book_place(
        book: *const u8,
        book_len: usize,
        question: *const u8,
        question_len: usize,
    ) -> Counted;
    /// Asks which names begin with a question.
    pub fn book_range(
        book: *const u8,
        book_len: usize,
        question: *const u8,
        question_len: usize,
    ) -> Counted;
    /// Asks for a name that shares most with a question.
    pub fn book_nearest(
        book: *const u8,
        book_len: usize,
        question: *const u8,
        question_len: usize,
    ) -> Counted;
    /// Asks how long the longest name is that begins with a question.
    pub fn book_width(
        book: *const u8,
        book_len: usize,
        question: *const u8,
        question_len: usize,
    ) -> Counted;
    /// Asks a batch of questions.
    pub fn book_batch(
        book: *const u8,
        book_len: usize,
        questions: *const u8,
        questions_len: usize,
        rows: *const Row,
        rows_len: usize,
        answers: *mut Answer,
        answers_len: usize,
    ) -> Answer;
    /// Turns a plain book into a column book.
    pub fn book_to_columns(
        book: *const u8,
        book_len: usize,
        room: *mut u8,
        room_len: usize,
    ) -> Answer;
    /// Turns a column book into a plain book.
    pub fn book_from_columns(
        book: *const u8,
        book_len: usize,
        room: *mut u8,
        room_len: usize,
    ) -> Answer;
    /// Salvages the names of a damaged book.
    pub fn book_salvage(
        data: *const u8,
        data_len: usize,
        room: *mut u8,
        room_len: usize,
        report: *mut Kept,
        report_len: usize,
    ) -> Answer;
    /// Merges two lists.
    pub fn list_merge(
        first: *const u8,
        first_len: usize,
        second: *const u8,
        second_len: usize,
        room: *mut u8,
        room_len: usize,
    ) -> Answer;
    /// Judges two lists.
    pub fn list_judge(
        first: *const u8,
        first_len: usize,
        second: *const u8,
        second_len: usize,
    ) -> Answer;
    /// Shows the lesser of the heads of two lists.
    pub fn list_head(
        first: *const u8,
        first_len: usize,
        second: *const u8,
        second_len: usize,
        passed_first: usize,
        passed_second: usize,
    ) -> Head;
    /// Gives the clip for a text.
    pub fn announce_clip(
        book: *const u8,
        book_len: usize,
        clips: *const u16,
        clips_len: usize,
        text: *const u8,
        text_len: usize,
    ) -> Answer;
    /// Writes the clips of a route.
    pub fn announce_route(
        book: *const u8,
        book_len: usize,
        clips: *const u16,
        clips_len: usize,
        positions: *const usize,
        positions_len: usize,
        room: *mut u16,
        room_len: usize,
    ) -> Answer;
}
