//! The tree as indented text.

use super::branches::{more_nodes, Branch, Tree};
use crate::text::{grouped, shown};

/// Draws the tree: a line for each node.
pub fn draw(tree: &Tree) -> String {
    let mut text = format!("{}\n", tree.headline);
    if !tree.branches.is_empty() {
        add(tree, 0, "", "", &mut text);
    }
    text
}

/// Adds the line of a node, and those below it.
fn add(tree: &Tree, number: usize, corner: &str, indent: &str, text: &mut String) {
    let branch = &tree.branches[number];
    text.push_str(&format!("{corner}{}\n", line(branch, number)));
    let last = branch.children.len().saturating_sub(1);
    for (index, &child) in branch.children.iter().enumerate() {
        let (corner, bar) = match index == last && branch.left_out == 0 {
            true => ("└─ ", "   "),
            false => ("├─ ", "│  "),
        };
        let (corner, indent) = (format!("{indent}{corner}"), format!("{indent}{bar}"));
        add(tree, child, &corner, &indent, text);
    }
    if branch.left_out > 0 {
        let more = more_nodes(branch.left_out);
        text.push_str(&format!("{indent}└─ .. {more}\n"));
    }
}

/// A node's letters, number, depth, width and names.
fn line(branch: &Branch, number: usize) -> String {
    let letters = letters(branch);
    let (depth, width) = (branch.node.depth, branch.node.width);
    let number = grouped(number);
    let names = match branch.is_leaf() {
        true => format!("{} {}", branch.positions(), shown(&branch.name)),
        false => branch.positions(),
    };
    format!("{letters}  node {number}, depth {depth}, width {width}, {names}")
}

/// The letters of an edge in quotes, and whether the end symbol follows.
fn letters(branch: &Branch) -> String {
    let quoted = format!("\"{}\"", shown(&branch.letters));
    match (branch.letters.is_empty(), branch.is_leaf()) {
        (true, true) => "end".to_string(),
        (false, true) => format!("{quoted} end"),
        (_, false) => quoted,
    }
}

#[cfg(test)]
mod tests {
    use super::super::branches::tests::{book_of, example};
    use super::*;

    #[test]
    fn the_example_is_four_lines_below_its_numbers() {
        let expected = "\
names 3 block 2 nodes 4 bytes 93
\"Mar\"  node 0, depth 3, width 13, names 0 to 2
├─ end  node 1, depth 4, width 3, name 0 Mar
├─ \"ina\" end  node 2, depth 7, width 6, name 1 Marina
└─ \"ket Square\" end  node 3, depth 14, width 13, name 2 Market Square
";
        assert_eq!(draw(&example()), expected);
    }

    #[test]
    fn forks_are_indented_and_what_is_left_out_is_said() {
        let mut book = book_of(&["Mar", "Marina", "Marine", "Market Square"]);
        let tree = Tree::of(&mut book, 4).unwrap();
        let expected = "\
\"Mar\"  node 0, depth 3, width 13, names 0 to 3
├─ end  node 1, depth 4, width 3, name 0 Mar
├─ \"in\"  node 2, depth 5, width 6, names 1 to 2
│  ├─ \"a\" end  node 3, depth 7, width 6, name 1 Marina
│  └─ .. 1 more node
└─ .. 1 more node
";
        let drawn = draw(&tree);
        assert_eq!(drawn.split_once('\n').unwrap().1, expected);
    }

    #[test]
    fn a_book_without_names_has_its_numbers_alone() {
        let tree = Tree::of(&mut book_of(&[]), 9).unwrap();
        assert_eq!(draw(&tree), "names 0 block 16 nodes 0 bytes 16\n");
    }
}
