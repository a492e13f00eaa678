//! The five questions, each with how far it looked.
//!
//! The functions have the names of those in the crate's root, ask the same and are
//! refused alike. They serve a guest that has a fixed slot for each question and
//! wants to know how much of it was taken.
//!
//! ```
//! use mistrogu::{build, counted, counted::Looked};
//!
//! let mut room = [0; 200];
//! let length = build(b"\x01a\x02ab\x01b", 2, &mut room)?;
//! let got = counted::exact(&room[..length], b"a")?;
//! assert_eq!(got.answer, Some(0));
//! // The root, the node of a and ab, and the leaf of a; and the first entry.
//! assert_eq!(got.looked, Looked { visits: 3, entries: 1 });
//! # Ok::<(), mistrogu::Refusal>(())
//! ```

use core::ops::Range;

use crate::{accepted, found, near, span, Nearest, Refusal};

/// How far a question looked, the check of the book left aside.
///
/// To one question all five kinds look equally far: at the nodes that lead to
/// [`nearest`](crate::nearest)'s name. With n names in blocks of k, `visits` is 1 at
/// least, and at most n and at most the question's length plus 2; `entries` is
/// nearest's position modulo k, plus 1. Of a book without names both are 0.
#[derive(Clone, Copy, Debug, PartialEq, Eq, Hash)]
pub struct Looked {
    /// How many nodes it visited going down, the root and the last one counted.
    pub visits: usize,
    /// How many entries it read to rebuild the one name that it compared.
    pub entries: usize,
}

/// What a question was answered, and how far it looked for that.
#[derive(Clone, Copy, Debug, PartialEq, Eq, Hash)]
pub struct Counted<T> {
    /// The answer, as the function of the same name in the crate's root gives it.
    pub answer: T,
    /// How far the question looked.
    pub looked: Looked,
}

impl<T> Counted<T> {
    /// The same with another answer, which is made of this one.
    ///
    /// ```
    /// use mistrogu::{build, counted, Reply};
    ///
    /// let mut room = [0; 100];
    /// let length = build(b"\x03Mar\x06Marina", 16, &mut room)?;
    /// let got = counted::width(&room[..length], b"Ma")?.map(Reply::Width);
    /// assert_eq!((got.answer, got.looked.visits), (Reply::Width(6), 1));
    /// # Ok::<(), mistrogu::Refusal>(())
    /// ```
    pub fn map<U>(self, of: impl FnOnce(T) -> U) -> Counted<U> {
        Counted {
            answer: of(self.answer),
            looked: self.looked,
        }
    }
}

/// What a question got, where its code is 0, by what its two numbers say.
fn told<T>(
    got: proved::Counted,
    says: impl FnOnce((usize, usize)) -> T,
) -> Result<Counted<T>, Refusal> {
    let answer = accepted(got.answer()).map(says)?;
    let looked = Looked {
        visits: got.visits,
        entries: got.entries,
    };
    Ok(Counted { answer, looked })
}

/// [`exact`](crate::exact), with how far it looked.
///
/// ```
/// use mistrogu::{build, counted};
///
/// let mut room = [0; 100];
/// let length = build(b"\x03Mar\x06Marina", 16, &mut room)?;
/// let got = counted::exact(&room[..length], b"Marina")?;
/// assert_eq!(got.answer, Some(1));
/// assert_eq!((got.looked.visits, got.looked.entries), (2, 2));
/// # Ok::<(), mistrogu::Refusal>(())
/// ```
pub fn exact(book: &[u8], question: &[u8]) -> Result<Counted<Option<usize>>, Refusal> {
    told(proved::book_exact(book, question), found)
}

/// [`place`](crate::place), with how far it looked.
///
/// ```
/// use mistrogu::{build, counted};
///
/// let mut room = [0; 100];
/// let length = build(b"\x03Mar\x06Marina", 16, &mut room)?;
/// let got = counted::place(&room[..length], b"Maxim")?;
/// assert_eq!(got.answer, 2);
/// assert_eq!((got.looked.visits, got.looked.entries), (2, 2));
/// # Ok::<(), mistrogu::Refusal>(())
/// ```
pub fn place(book: &[u8], question: &[u8]) -> Result<Counted<usize>, Refusal> {
    told(proved::book_place(book, question), |(place, _)| place)
}

/// [`range`](crate::range), with how far it looked.
///
/// ```
/// use mistrogu::{build, counted};
///
/// let mut room = [0; 100];
/// let length = build(b"\x03Mar\x06Marina", 16, &mut room)?;
/// let got = counted::range(&room[..length], b"Ma")?;
/// assert_eq!(got.answer, 0..2);
/// assert_eq!((got.looked.visits, got.looked.entries), (1, 1));
/// # Ok::<(), mistrogu::Refusal>(())
/// ```
pub fn range(book: &[u8], question: &[u8]) -> Result<Counted<Range<usize>>, Refusal> {
    told(proved::book_range(book, question), span)
}

/// [`nearest`](crate::nearest), with how far it looked.
///
/// ```
/// use mistrogu::{build, counted, Nearest};
///
/// let mut room = [0; 100];
/// let length = build(b"\x03Mar\x06Marina", 16, &mut room)?;
/// let got = counted::nearest(&room[..length], b"Marine Parade")?;
/// assert_eq!(got.answer, Nearest { position: 1, lit: 5 });
/// assert_eq!((got.looked.visits, got.looked.entries), (2, 2));
/// # Ok::<(), mistrogu::Refusal>(())
/// ```
pub fn nearest(book: &[u8], question: &[u8]) -> Result<Counted<Nearest>, Refusal> {
    told(proved::book_nearest(book, question), near)
}

/// [`width`](crate::width), with how far it looked.
///
/// ```
/// use mistrogu::{build, counted};
///
/// let mut room = [0; 100];
/// let length = build(b"\x03Mar\x06Marina", 16, &mut room)?;
/// let got = counted::width(&room[..length], b"Mar")?;
/// assert_eq!(got.answer, 6);
/// assert_eq!((got.looked.visits, got.looked.entries), (2, 1));
/// # Ok::<(), mistrogu::Refusal>(())
/// ```
pub fn width(book: &[u8], question: &[u8]) -> Result<Counted<usize>, Refusal> {
    told(proved::book_width(book, question), |(width, _)| width)
}
