//! A plain sorted array of names, searched by halving.
//!
//! It is what a careful programmer would write in place of a book: the list's
//! records stay where they are, lent, and beside them stands a lent row of
//! offsets, one for each name. Nothing needs a heap.
//!
//! There is no check. Whoever made the array trusts it: a wrong offset can't
//! read outside the list, because Rust tests every index, but it may stop the
//! program, and an array that is out of order gives wrong answers.

use format::LONGEST_NAME;
use model::names::leading_equal;

/// Names in order, in lent list records.
#[derive(Clone, Copy)]
pub struct Sorted<'lent> {
    /// The list: a length byte, then that many bytes, for each name.
    list: &'lent [u8],
    /// Where in the list each record begins.
    starts: &'lent [u32],
}

impl<'lent> Sorted<'lent> {
    /// Notes where the records begin. Nothing where a record is bad, names do
    /// not rise, or there are more of them than offsets.
    pub fn build(list: &'lent [u8], starts: &'lent mut [u32]) -> Option<Sorted<'lent>> {
        let mut count = 0;
        let mut start = 0;
        let mut before: &[u8] = &[];
        while start < list.len() {
            let length = usize::from(list[start]);
            let name = list.get(start + 1..start + 1 + length)?;
            // The first name is above nothing, since it is not empty.
            if length > LONGEST_NAME || name <= before {
                return None;
            }
            *starts.get_mut(count)? = u32::try_from(start).ok()?;
            count += 1;
            start += 1 + length;
            before = name;
        }
        Some(Sorted {
            list,
            starts: &starts[..count],
        })
    }

    /// How many bytes the names and the offsets take.
    pub fn size(&self) -> usize {
        size_of_val(self.list) + size_of_val(self.starts)
    }

    /// The name in the record that begins here.
    fn name(&self, start: u32) -> &'lent [u8] {
        let start = start as usize;
        let length = usize::from(self.list[start]);
        &self.list[start + 1..start + 1 + length]
    }

    /// Copies the name at this position into the room, and gives its length.
    pub fn read(&self, position: usize, room: &mut [u8]) -> Option<usize> {
        let name = self.name(*self.starts.get(position)?);
        room.get_mut(..name.len())?.copy_from_slice(name);
        Some(name.len())
    }

    /// (position, 1) where a name equals the question, else (0, 0).
    pub fn exact(&self, question: &[u8]) -> (usize, usize) {
        let found = self
            .starts
            .binary_search_by(|&start| self.name(start).cmp(question));
        found.map_or((0, 0), |position| (position, 1))
    }

    /// How many names are less than the question, and a 0.
    pub fn place(&self, question: &[u8]) -> (usize, usize) {
        let less = |&start: &u32| self.name(start) < question;
        (self.starts.partition_point(less), 0)
    }

    /// The question's place, and how many names begin with it: they stand
    /// together, from its place on.
    pub fn range(&self, question: &[u8]) -> (usize, usize) {
        let (place, _) = self.place(question);
        let begins = |&start: &u32| self.name(start).starts_with(question);
        (place, self.starts[place..].partition_point(begins))
    }

    /// The greatest length of the names that begin with the question, and a 0: each
    /// of them is looked at.
    pub fn width(&self, question: &[u8]) -> (usize, usize) {
        let (place, names) = self.range(question);
        let starts = &self.starts[place..place + names];
        let lengths = starts.iter().map(|&start| self.name(start).len());
        (lengths.max().unwrap_or(0), 0)
    }

    /// The first name of the node that the question leads to, and how many
    /// leading bytes of the question to light there; nothing where there are no
    /// names.
    ///
    /// A node is a run of names. Since they are in order, all share what the
    /// first and the last of them share, and those that go on with the same
    /// byte stand together.
    pub fn nearest(&self, question: &[u8]) -> Option<(usize, usize)> {
        let mut first = 0;
        let mut node = self.starts;
        while let [low, .., high] = node {
            let depth = leading_equal(self.name(*low), self.name(*high));
            if depth > question.len() {
                break;
            }
            // No byte is the end, and it is below every byte.
            let wanted = question.get(depth);
            let less = |&start: &u32| self.name(start).get(depth) < wanted;
            let from = node.partition_point(less);
            let fits = |&start: &u32| self.name(start).get(depth) == wanted;
            let names = node[from..].partition_point(fits);
            if names == 0 {
                break;
            }
            first += from;
            node = &node[from..from + names];
        }
        let name = self.name(*node.first()?);
        Some((first, lit(question, leading_equal(name, question))))
    }
}

/// How many leading bytes of a question to light where it shares so many: back to
/// the start of a character that goes on behind them.
fn lit(question: &[u8], shared: usize) -> usize {
    let mut lit = shared;
    while lit > 0 && matches!(question.get(lit), Some(128..=191)) {
        lit -= 1;
    }
    lit
}
