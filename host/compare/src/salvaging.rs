//! What a sound book still has, written out as its list, by every subject that
//! can.

use crate::items::{item, of_library, of_model, of_reference, Call, Data, Item};
use crate::{answered, Numbers};
use compare::stations::BLOCK;
use compare::steps::{Step, LIBRARY, MODEL, REFERENCE};

/// Salvaging into a room for the list, with a row for each block.
struct Salvaging<K> {
    data: &'static Data,
    room: Vec<u8>,
    report: Vec<K>,
    salvage: Salvage<K>,
    tell: Tell<K>,
}

/// A call that salvages: the book, the room and the rows.
type Salvage<K> = fn(&[u8], &mut [u8], &mut [K]) -> Numbers;
/// What a row says: 1 where its block is kept, and the names of it.
type Tell<K> = fn(&K) -> (usize, usize);

impl<K: Send> Call for Salvaging<K> {
    fn turns(&self) -> usize {
        1
    }

    fn make(&mut self, _: usize) -> Numbers {
        (self.salvage)(&self.data.book, &mut self.room, &mut self.report)
    }

    fn is_right(&self, _: usize, numbers: Numbers) -> bool {
        let blocks = self.data.names.chunks(BLOCK);
        let expected = blocks.map(|names| (1, names.len()));
        numbers == answered([0, self.data.list.len(), 0])
            && self.room == self.data.list
            && self.report.iter().map(self.tell).eq(expected)
    }
}

/// The salvage of each subject that has one.
pub fn items(data: &'static Data) -> Vec<Item> {
    vec![
        of(
            LIBRARY,
            data,
            |book, room, report| of_library(proved::book_salvage(book, room, report)),
            |row| (row.kept, row.names),
        ),
        of(
            REFERENCE,
            data,
            |book, room, report| of_reference(reference::book_salvage(book, room, report)),
            |row| (row.kept, row.names),
        ),
        of(
            MODEL,
            data,
            |book, room, report| of_model(model::book_salvage(book, room, report)),
            |row| (row.kept, row.names),
        ),
    ]
}

/// The salvage of this subject.
fn of<K>(subject: usize, data: &'static Data, salvage: Salvage<K>, tell: Tell<K>) -> Item
where
    K: Clone + Default + Send + 'static,
{
    let blocks = data.names.len().div_ceil(BLOCK);
    let salvaging = Salvaging {
        data,
        room: vec![0; data.list.len()],
        report: vec![K::default(); blocks],
        salvage,
        tell,
    };
    item(subject, Step::Salvage, salvaging)
}
