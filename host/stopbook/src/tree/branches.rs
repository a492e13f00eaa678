//! The node table as a tree to draw.

use crate::book::Book;
use crate::layout::Node;
use crate::outcome::Failure;
use crate::text::{counted, grouped};
use mistrogu::BookKind;

/// A node with what leads to it.
#[derive(Clone, Debug, PartialEq, Eq)]
pub struct Branch {
    /// The node as it is stored.
    pub node: Node,
    /// How many edges lie between the root and it.
    pub level: usize,
    /// The letters on the edge that leads to it, without an end symbol. A folded
    /// book's are small ones, whatever the case of its names.
    pub letters: Vec<u8>,
    /// The letters from the root to it, likewise.
    pub beginning: Vec<u8>,
    /// The node's first name.
    pub name: Vec<u8>,
    /// The numbers of its children that are drawn.
    pub children: Vec<usize>,
    /// How many nodes below it are not drawn.
    pub left_out: usize,
}

impl Branch {
    /// Whether it is the node of one name. Its edge then ends with the end
    /// symbol.
    pub fn is_leaf(&self) -> bool {
        self.node.names == 1
    }

    /// Its names: `name 1` or `names 0 to 2`.
    pub fn positions(&self) -> String {
        let (first, names) = (self.node.first, self.node.names);
        let [first, last] = [first, (first + names).saturating_sub(1)].map(grouped);
        match names {
            1 => format!("name {first}"),
            _ => format!("names {first} to {last}"),
        }
    }
}

/// The first nodes of a node table, up to a limit. A node stands before all
/// below it, so every node but the root has its parent among them.
#[derive(Debug)]
pub struct Tree {
    /// The nodes, in the order of the table.
    pub branches: Vec<Branch>,
    /// How many nodes the table has.
    pub nodes: usize,
    /// The first line of the book's listing.
    pub headline: String,
}

impl Tree {
    /// The tree of a book, with so many nodes at most.
    pub fn of(book: &mut Book, limit: usize) -> Result<Tree, Failure> {
        let nodes = book.nodes()?;
        let mut tree = Tree {
            branches: Vec::new(),
            nodes: nodes.len(),
            headline: book.headline(),
        };
        // The nodes from the root to the last one drawn, each with the number
        // of the node behind its subtree.
        let mut path: Vec<(usize, usize)> = Vec::new();
        for (number, node) in nodes.iter().enumerate() {
            while path.last().is_some_and(|&(_, end)| end <= number) {
                path.pop();
            }
            let parent = path.last().map(|&(parent, _)| parent);
            if number < limit {
                let name = book.name(node.first)?.to_vec();
                tree.add(book.kind(), *node, name, parent);
                path.push((number, number + node.nodes));
            } else if let Some(parent) = parent {
                tree.branches[parent].left_out += 1;
            }
        }
        Ok(tree)
    }

    /// Adds a node of a book of this kind below its parent.
    fn add(&mut self, kind: BookKind, node: Node, name: Vec<u8>, parent: Option<usize>) {
        let depth = node.depth.min(name.len());
        let letters = name[..depth].iter().map(|&byte| kind.compared(byte));
        let beginning: Vec<u8> = letters.collect();
        let (mut from, mut level) = (0, 0);
        let number = self.branches.len();
        if let Some(parent) = parent {
            let parent = &mut self.branches[parent];
            (from, level) = (parent.node.depth, parent.level + 1);
            parent.children.push(number);
        }
        self.branches.push(Branch {
            node,
            level,
            letters: beginning.get(from..).unwrap_or_default().to_vec(),
            beginning,
            name,
            children: Vec::new(),
            left_out: 0,
        });
    }

    /// How many nodes are not drawn.
    pub fn left_out(&self) -> usize {
        self.nodes - self.branches.len()
    }
}

/// What stands for nodes that are not drawn.
pub fn more_nodes(count: usize) -> String {
    counted(count, "more node")
}

#[cfg(test)]
pub mod tests {
    use super::*;
    use crate::layout::tests::EXAMPLE;

    /// The plain book of these names, in blocks of 16.
    pub fn book_of(names: &[&str]) -> Book {
        built_by(mistrogu::build, names)
    }

    /// The folded book of these names, in blocks of 16.
    pub fn folded_book_of(names: &[&str]) -> Book {
        built_by(mistrogu::build_folded, names)
    }

    /// A call that builds a book.
    type Build = fn(&[u8], usize, &mut [u8]) -> Result<usize, mistrogu::Refused>;

    /// What a call builds of these names, in blocks of 16.
    fn built_by(build: Build, names: &[&str]) -> Book {
        let names: Vec<Vec<u8>> = names.iter().map(|name| name.as_bytes().to_vec()).collect();
        let mut room = vec![0; 65_535];
        let length = build(&crate::names::records(&names), 16, &mut room);
        room.truncate(length.map_err(|refused| refused.refusal).unwrap());
        Book::of(room, "book".to_string()).unwrap()
    }

    /// The tree of document 01's example.
    pub fn example() -> Tree {
        let mut book = Book::of(EXAMPLE.to_vec(), "example".to_string()).unwrap();
        Tree::of(&mut book, 100).unwrap()
    }

    /// Level, letters and children of each node.
    fn shape(tree: &Tree) -> Vec<(usize, &str, Vec<usize>)> {
        let mut rows = Vec::new();
        for branch in &tree.branches {
            let letters = std::str::from_utf8(&branch.letters).unwrap();
            rows.push((branch.level, letters, branch.children.clone()));
        }
        rows
    }

    #[test]
    fn the_example_has_three_leaves_below_its_root() {
        let expected = [
            (0, "Mar", vec![1, 2, 3]),
            (1, "", vec![]),
            (1, "ina", vec![]),
            (1, "ket Square", vec![]),
        ];
        assert_eq!(shape(&example()), expected);
        assert_eq!(example().branches[0].positions(), "names 0 to 2");
        assert_eq!(example().branches[2].positions(), "name 1");
    }

    #[test]
    fn the_format_pages_second_example_has_a_fork_below_its_root() {
        let mut book = book_of(&["Mar", "Marina", "Marine", "Market Square"]);
        let tree = Tree::of(&mut book, 100).unwrap();
        let expected = [
            (0, "Mar", vec![1, 2, 5]),
            (1, "", vec![]),
            (1, "in", vec![3, 4]),
            (2, "a", vec![]),
            (2, "e", vec![]),
            (1, "ket Square", vec![]),
        ];
        assert_eq!(shape(&tree), expected);
    }

    #[test]
    fn the_letters_of_a_folded_book_are_small_ones() {
        let mut book = folded_book_of(&["mar", "Marina", "MARKET Square"]);
        let tree = Tree::of(&mut book, 100).unwrap();
        let expected = [
            (0, "mar", vec![1, 2, 3]),
            (1, "", vec![]),
            (1, "ina", vec![]),
            (1, "ket square", vec![]),
        ];
        assert_eq!(shape(&tree), expected);
        assert_eq!(tree.branches[3].name, b"MARKET Square");
        assert_eq!(tree.branches[3].beginning, b"market square");
    }

    #[test]
    fn letters_on_the_way_spell_every_name() {
        let names = ["A", "AB", "ABC", "ABD", "B", "BA", "École", "Ècole"];
        let mut sorted = names;
        sorted.sort();
        let tree = Tree::of(&mut book_of(&sorted), 100).unwrap();
        let mut spelled = Vec::new();
        spell(&tree, 0, Vec::new(), &mut spelled);
        let expected: Vec<Vec<u8>> = sorted.iter().map(|name| name.as_bytes().to_vec()).collect();
        assert_eq!(spelled, expected);
    }

    /// Collects the letters from the root to each leaf.
    fn spell(tree: &Tree, number: usize, mut word: Vec<u8>, spelled: &mut Vec<Vec<u8>>) {
        let branch = &tree.branches[number];
        word.extend(&branch.letters);
        for &child in &branch.children {
            spell(tree, child, word.clone(), spelled);
        }
        if branch.is_leaf() {
            spelled.push(word);
        }
    }

    #[test]
    fn nodes_past_the_limit_are_counted_where_they_would_hang() {
        let mut book = book_of(&["Mar", "Marina", "Marine", "Market Square"]);
        for limit in 1..8 {
            let tree = Tree::of(&mut book, limit).unwrap();
            let counted: usize = tree.branches.iter().map(|branch| branch.left_out).sum();
            assert_eq!(tree.branches.len(), limit.min(6));
            assert_eq!(counted, tree.left_out());
        }
        let tree = Tree::of(&mut book, 4).unwrap();
        assert_eq!(tree.branches[2].left_out, 1);
        assert_eq!(tree.branches[0].left_out, 1);
    }

    #[test]
    fn a_book_without_names_has_no_nodes() {
        let tree = Tree::of(&mut book_of(&[]), 100).unwrap();
        assert!(tree.branches.is_empty());
        assert_eq!(tree.left_out(), 0);
    }
}
