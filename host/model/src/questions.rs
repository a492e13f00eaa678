//! The five questions, asked of a plain sorted list.
//!
//! Renders document 01, "Questions", and of document 02 width, nearest's number
//! and how far a question looks, change requests 1, 3 and 8. Exact, place, range
//! and width go through all names. Only nearest needs the tree, because document 01
//! says by the tree which of several equally near names it gives; and how far a
//! question of any kind looks is counted on nearest's way down in it. All of them go
//! by symbols, so each takes the rule of the names' book (change request 7).

use crate::names::{begins_with, is_less, is_same, shared_symbols, symbols, Rule};
use crate::tree::{tree, Node};

/// The five kinds of question.
#[derive(Clone, Copy, Debug, PartialEq, Eq)]
pub enum Kind {
    /// Is there such a name?
    Exact,
    /// How many names are less?
    Place,
    /// Which names begin with it?
    Range,
    /// Which name shares most with it?
    Nearest,
    /// How long is the longest name that begins with it?
    Width,
}

impl Kind {
    /// The kind that a batch row's number means; only 1 to 5 mean one.
    pub fn of_number(number: usize) -> Option<Kind> {
        match number {
            1 => Some(Kind::Exact),
            2 => Some(Kind::Place),
            3 => Some(Kind::Range),
            4 => Some(Kind::Nearest),
            5 => Some(Kind::Width),
            _ => None,
        }
    }
}

/// Where the question itself is a name, by its symbols: its position and a 1.
/// Else two zeros.
pub fn exact(rule: Rule, names: &[Vec<u8>], question: &[u8]) -> (usize, usize) {
    for (position, name) in names.iter().enumerate() {
        if is_same(rule, name, question) {
            return (position, 1);
        }
    }
    (0, 0)
}

/// The count of names before the question, and a 0.
pub fn place(rule: Rule, names: &[Vec<u8>], question: &[u8]) -> (usize, usize) {
    let less = names.iter().filter(|name| is_less(rule, name, question));
    (less.count(), 0)
}

/// The question's place, and the count of names that have it as their front.
pub fn range(rule: Rule, names: &[Vec<u8>], question: &[u8]) -> (usize, usize) {
    let (less, _) = place(rule, names, question);
    let beginning = names
        .iter()
        .filter(|name| begins_with(rule, name, question))
        .count();
    (less, beginning)
}

/// The greatest length among the names that have the question as their front,
/// and a 0. Where there is no such name the greatest length is 0.
pub fn width(rule: Rule, names: &[Vec<u8>], question: &[u8]) -> (usize, usize) {
    let mut greatest = 0;
    for name in names {
        if begins_with(rule, name, question) {
            greatest = greatest.max(name.len());
        }
    }
    (greatest, 0)
}

/// The first name of the node that the question leads to, and how many leading
/// bytes of the question to light there; nothing where there are no names.
pub fn nearest(rule: Rule, names: &[Vec<u8>], question: &[u8]) -> Option<(usize, usize)> {
    let root = tree(rule, names)?;
    Some(nearest_from(rule, &root, names, question))
}

/// The same where the root of the names' tree is at hand.
pub fn nearest_from(rule: Rule, root: &Node, names: &[Vec<u8>], question: &[u8]) -> (usize, usize) {
    let position = node_reached(rule, root, question).first;
    let shared = shared_symbols(rule, &names[position], question);
    (position, lit(question, shared))
}

/// How many leading bytes of a question to light where it shares so many with a
/// name: the greatest L, not above the shared bytes, that is 0, or the
/// question's length, or a place where the question's byte is not 128 to 191.
/// Which bytes are shared goes by symbols; where to cut, by the question's bytes.
///
/// In UTF-8 the bytes 128 to 191 are those inside a character. Cafè shares 4
/// bytes with Café, the first one of è among them, and 3 are lit.
pub fn lit(question: &[u8], shared: usize) -> usize {
    let mut greatest = 0;
    for place in 0..=shared {
        if place == 0 || place == question.len() || is_outside(question, place) {
            greatest = place;
        }
    }
    greatest
}

/// Whether this is a place of the question, and its byte there is not 128 to
/// 191.
fn is_outside(question: &[u8], place: usize) -> bool {
    let byte = question.get(place);
    byte.is_some_and(|byte| !(128..=191).contains(byte))
}

/// How far a question looks.
#[derive(Clone, Copy, Debug, PartialEq, Eq, Default)]
pub struct Look {
    /// How many nodes are visited going down, the root and the last one counted.
    pub visits: usize,
    /// How many entries are read to rebuild the one name that is compared.
    pub entries: usize,
}

/// How far a question of any kind looks where the names stand in blocks of so
/// many: at nothing where there are no names.
pub fn look(rule: Rule, block: usize, names: &[Vec<u8>], question: &[u8]) -> Look {
    match tree(rule, names) {
        None => Look::default(),
        Some(root) => look_from(rule, block, &root, question),
    }
}

/// The same where the root of the names' tree is at hand.
pub fn look_from(rule: Rule, block: usize, root: &Node, question: &[u8]) -> Look {
    let way = way_down(rule, root, question);
    let reached = way[way.len() - 1];
    Look {
        visits: way.len(),
        entries: entries_read(block, reached.first),
    }
}

/// How many entries are read to rebuild the name at this position: those of its
/// block, from the block's first up to its own.
fn entries_read(block: usize, position: usize) -> usize {
    position % block + 1
}

/// The node where the way down ends.
pub fn node_reached<'tree>(rule: Rule, root: &'tree Node, question: &[u8]) -> &'tree Node {
    let way = way_down(rule, root, question);
    way[way.len() - 1]
}

/// Goes down from the root for as long as a child fits the question: every node
/// on the way, the root first.
pub fn way_down<'tree>(rule: Rule, root: &'tree Node, question: &[u8]) -> Vec<&'tree Node> {
    let wanted = symbols(rule, question);
    let mut way = vec![root];
    let mut node = root;
    while let Some(child) = fitting_child(node, &wanted) {
        way.push(child);
        node = child;
    }
    way
}

/// The child whose symbol is the question's symbol number d, for depth d.
///
/// There is none in the three cases where document 01 stops: a leaf has no
/// children; where d exceeds the question's length the question has no such
/// symbol (its end symbol is number "length"); or no child has that symbol.
fn fitting_child<'tree>(node: &'tree Node, wanted: &[usize]) -> Option<&'tree Node> {
    let symbol = *wanted.get(node.depth)?;
    node.children.iter().find(|child| child.symbol == symbol)
}
