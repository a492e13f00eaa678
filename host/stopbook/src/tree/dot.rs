//! The tree in the DOT language, for programs that draw graphs.

use super::branches::{more_nodes, Branch, Tree};
use crate::text::{grouped, named, shown};

/// Draws the tree.
pub fn draw(tree: &Tree) -> String {
    let mut text = String::from("digraph book {\n  rankdir=LR;\n  node [shape=box];\n");
    text.push_str(&format!("  label={};\n", quoted(&[&tree.headline])));
    for (number, branch) in tree.branches.iter().enumerate() {
        let label = quoted(&label(branch, number).each_ref().map(String::as_str));
        text.push_str(&format!("  n{number} [label={label}];\n"));
        for &child in &branch.children {
            let letters = quoted(&[&letters(&tree.branches[child])]);
            text.push_str(&format!("  n{number} -> n{child} [label={letters}];\n"));
        }
        if branch.left_out > 0 {
            let more = quoted(&[&more_nodes(branch.left_out)]);
            text.push_str(&format!(
                "  more{number} [shape=plaintext, label={more}];\n  \
                 n{number} -> more{number} [style=dashed];\n"
            ));
        }
    }
    text.push_str("}\n");
    text
}

/// The lines in a node's box.
fn label(branch: &Branch, number: usize) -> [String; 3] {
    let name = match branch.is_leaf() {
        true => shown(&branch.name),
        false => format!("all begin with {}", named(&branch.beginning)),
    };
    let (depth, width) = (branch.node.depth, branch.node.width);
    let head = format!("node {}, depth {depth}", grouped(number));
    let names = format!("{}, width {width}", branch.positions());
    [head, names, name]
}

/// The letters of an edge, and whether the end symbol follows.
fn letters(branch: &Branch) -> String {
    match (branch.letters.is_empty(), branch.is_leaf()) {
        (true, true) => "end".to_string(),
        (false, true) => format!("{} end", shown(&branch.letters)),
        (_, false) => shown(&branch.letters),
    }
}

/// Lines as one string of the language.
fn quoted(lines: &[&str]) -> String {
    let escaped: Vec<String> = lines
        .iter()
        .map(|line| line.replace('\\', "\\\\").replace('"', "\\\""))
        .collect();
    format!("\"{}\"", escaped.join("\\n"))
}

#[cfg(test)]
mod tests {
    use super::super::branches::tests::{book_of, example};
    use super::*;

    #[test]
    fn the_example_has_four_nodes_and_three_edges() {
        let drawn = draw(&example());
        assert_eq!(drawn.matches("shape=box").count(), 1);
        for line in [
            "  n0 [label=\"node 0, depth 3\\nnames 0 to 2, width 13\\nall begin with Mar\"];",
            "  n1 [label=\"node 1, depth 4\\nname 0, width 3\\nMar\"];",
            "  n0 -> n1 [label=\"end\"];",
            "  n0 -> n2 [label=\"ina end\"];",
            "  n0 -> n3 [label=\"ket Square end\"];",
        ] {
            assert!(drawn.lines().any(|drawn| drawn == line), "{line}\n{drawn}");
        }
        assert_eq!(drawn.matches(" -> ").count(), 3);
        assert!(drawn.ends_with("}\n"));
    }

    #[test]
    fn quotes_and_backslashes_are_escaped() {
        assert_eq!(quoted(&["a\"b\\5C", "c"]), "\"a\\\"b\\\\5C\\nc\"");
    }

    #[test]
    fn what_is_left_out_hangs_by_a_dashed_edge() {
        let tree = Tree::of(&mut book_of(&["a", "b", "c"]), 2).unwrap();
        let drawn = draw(&tree);
        assert!(drawn.contains("n0 -> more0 [style=dashed];"));
        assert!(drawn.contains("2 more nodes"));
    }
}
