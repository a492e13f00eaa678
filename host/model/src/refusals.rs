//! The fourteen refusals, by number.
//!
//! Renders the table of document 01, "Numbers given back when a call says no",
//! with the numbers that document 02, change requests 5 and 9, add; 14 and 15 are
//! for change request 13. The order in which a call looks for them stands with the
//! call.

/// The question, or the typed text, has more than 200 bytes.
pub const QUESTION_TOO_LONG: usize = 1;
/// The bytes are not a book.
pub const NO_BOOK: usize = 2;
/// The book has no name at this position.
pub const NO_SUCH_POSITION: usize = 3;
/// The output does not fit the lent room.
pub const ROOM_TOO_SHORT: usize = 4;
/// A list record has length 0, a length above 200, or not all of its bytes.
pub const BAD_RECORD: usize = 5;
/// A name is not above the one before it, by the symbols of the list's book.
pub const NOT_RISING: usize = 6;
/// A list has a name more than the 2,000 allowed.
pub const TOO_MANY_NAMES: usize = 7;
/// The block size is not 1 to 64.
pub const BAD_BLOCK_SIZE: usize = 8;
/// The book would have more than 65,535 bytes.
pub const BOOK_TOO_LONG: usize = 9;
/// The nearest name was asked of a book that has none.
pub const NEAREST_OF_NONE: usize = 10;
/// A batch row has an unknown kind, or its span leaves the question buffer.
pub const BAD_ROW: usize = 11;
/// A batch has more than 64 rows, or not as many answer rows as questions; or a
/// worn card has not as many blocks as there are report rows; or a route has more
/// than 120 positions.
pub const BAD_ROW_COUNT: usize = 12;
/// The trailer and block table of a worn card make no sense, or it is marked as
/// another kind of book than the plain one.
pub const NO_MAP: usize = 13;
/// The clip table has not as many clips as the book has names.
pub const BAD_CLIP_COUNT: usize = 16;
