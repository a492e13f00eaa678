//! The tree of a list of names.
//!
//! Renders the paragraph of document 01, "Layout of a book", that says which
//! nodes there are and what their fields hold; the sixth field is document
//! 02's. `layout` writes the tree down as a table; `questions` goes down in it
//! for the nearest name, and counts the nodes on the way.

use crate::names::{leading_equal, symbols, Rule};

/// A node with its own row of children.
///
/// The six numbers stand in the order in which the node table holds them.
#[derive(Clone, Debug, PartialEq, Eq)]
pub struct Node {
    /// The symbol that led here. The root has 0, which is not the end there.
    pub symbol: usize,
    /// How many leading symbols all names of this node share.
    pub depth: usize,
    /// The position of the first name of this node.
    pub first: usize,
    /// How many names are in this node.
    pub names: usize,
    /// How many nodes are in this part of the tree, with this one.
    pub nodes: usize,
    /// The greatest length of a name in this node, in bytes.
    pub width: usize,
    /// One node for each symbol that follows the shared ones, rising.
    pub children: Vec<Node>,
}

/// The root for all names, or nothing where there are no names. The tree is one
/// of symbols, so the rule says which names part, and where.
pub fn tree(rule: Rule, names: &[Vec<u8>]) -> Option<Node> {
    let strings: Vec<Vec<usize>> = names.iter().map(|name| symbols(rule, name)).collect();
    if strings.is_empty() {
        return None;
    }
    Some(node_of(0, 0, &strings))
}

/// The node of some neighbouring names, of which the first has position
/// `first`. Here each name is its string of symbols, end symbol included.
fn node_of(symbol: usize, first: usize, strings: &[Vec<usize>]) -> Node {
    let depth;
    let children;
    if strings.len() == 1 {
        // A leaf. The name's length plus 1 is the number of its symbols.
        depth = strings[0].len();
        children = Vec::new();
    } else {
        depth = shared_by_all(strings);
        children = children_of(depth, first, strings);
    }
    let below: usize = children.iter().map(|child| child.nodes).sum();
    Node {
        symbol,
        depth,
        first,
        names: strings.len(),
        nodes: 1 + below,
        width: greatest_length(strings),
        children,
    }
}

/// The greatest length of a name among the strings. The end symbol is no byte
/// of a name, so a name's length is the number of its symbols less 1.
fn greatest_length(strings: &[Vec<usize>]) -> usize {
    let mut greatest = 0;
    for string in strings {
        greatest = greatest.max(string.len() - 1);
    }
    greatest
}

/// The count of leading symbols that all the strings share.
fn shared_by_all(strings: &[Vec<usize>]) -> usize {
    let mut shared = strings[0].len();
    for string in strings {
        shared = shared.min(leading_equal(&strings[0], string));
    }
    shared
}

/// One child for each symbol at number `depth`.
///
/// The names are in order, so those with the same symbol there stand together
/// and the symbols rise from group to group. Only where a list holds a name
/// twice, which no sound list does, is there no symbol at that number; such a
/// group gets no child, so that this ends for every list whatever.
fn children_of(depth: usize, first: usize, strings: &[Vec<usize>]) -> Vec<Node> {
    let mut children = Vec::new();
    let mut position = first;
    for group in strings.chunk_by(|one, next| one.get(depth) == next.get(depth)) {
        if let Some(&symbol) = group[0].get(depth) {
            children.push(node_of(symbol, position, group));
        }
        position += group.len();
    }
    children
}
