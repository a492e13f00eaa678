//! `stopbook tree` from end to end.

mod common;

use common::{Folder, Numbers, EXAMPLE, NO_NAMES};

#[test]
fn the_tree_of_document_01_is_drawn_as_text() {
    let folder = Folder::with("mar.book", EXAMPLE);
    let expected = "\
names 3 block 2 nodes 4 bytes 93
\"Mar\"  node 0, depth 3, width 13, names 0 to 2
├─ end  node 1, depth 4, width 3, name 0 Mar
├─ \"ina\" end  node 2, depth 7, width 6, name 1 Marina
└─ \"ket Square\" end  node 3, depth 14, width 13, name 2 Market Square
";
    folder.run(&["tree", "mar.book"]).assert(0, expected);
    folder.run_with(&["tree", "-"], EXAMPLE).assert(0, expected);
}

#[test]
fn pictures_go_to_files_and_to_standard_output() {
    let folder = Folder::with("mar.book", EXAMPLE);
    folder
        .run(&["tree", "mar.book", "--svg", "mar.svg"])
        .assert(0, "");
    let svg = String::from_utf8(folder.read("mar.svg")).expect("it is text");
    assert!(svg.starts_with("<svg ") && svg.ends_with("</svg>\n"));
    folder
        .run(&["tree", "mar.book", "--svg", "-"])
        .assert(0, &svg);
    folder
        .run(&["tree", "mar.book", "--dot=mar.dot"])
        .assert(0, "");
    let dot = String::from_utf8(folder.read("mar.dot")).expect("it is text");
    assert_eq!(dot.matches(" -> ").count(), 3);
    let ran = folder.run(&["tree", "mar.book", "--svg", "./mar.book"]);
    ran.assert_fails(2, &["mar.book is read and would be written over"]);
    let ran = folder.run(&["tree", "mar.book", "--svg", "a", "--dot", "b"]);
    ran.assert_fails(2, &["give --svg or --dot, not both"]);
}

#[test]
fn the_picture_in_the_docs_is_what_the_program_draws() {
    let folder = Folder::with("mar.book", EXAMPLE);
    let picture = include_str!("../../../docs/mar-tree.svg");
    folder
        .run(&["tree", "mar.book", "--svg", "-"])
        .assert(0, picture);
}

#[test]
fn a_large_tree_is_cut_and_that_is_told() {
    let names: String = (0..2_000).map(|number| format!("{number:04}\n")).collect();
    let folder = Folder::with("n.txt", names.as_bytes());
    assert_eq!(folder.run(&["build", "n.txt"]).status, 0);
    let ran = folder.run(&["tree", "n.book"]);
    assert_eq!(ran.status, 0);
    assert_eq!(ran.out().matches("  node ").count(), 100);
    // 2,000 leaves, 200 forks of ten, 20 of those, 2 of those, the root.
    assert!(ran
        .err
        .contains("100 of 2,223 nodes are drawn; --limit 2,223 draws them all"));
    let ran = folder.run(&["tree", "n.book", "--limit", "2,223"]);
    assert_eq!((ran.status, ran.err.as_str()), (0, ""));
    assert_eq!(ran.out().lines().count(), 2_224);
    let last = "node 2,222, depth 5, width 4, name 1,999 1999\n";
    assert!(ran
        .out()
        .starts_with("names 2,000 block 16 nodes 2,223 bytes "));
    assert!(ran.out().ends_with(last));
    let ran = folder.run(&["tree", "n.book", "--svg", "n.svg", "--limit", "2223"]);
    assert_eq!((ran.status, ran.err.as_str()), (0, ""));
    let ran = folder.run(&["tree", "n.book", "--limit", "0"]);
    ran.assert_fails(2, &["--limit takes 1 or more"]);
}

#[test]
fn a_book_without_names_is_drawn() {
    let folder = Folder::with("none.book", NO_NAMES);
    let ran = folder.run(&["tree", "none.book"]);
    ran.assert(0, "names 0 block 2 nodes 0 bytes 16\n");
    for option in ["--svg", "--dot"] {
        assert_eq!(folder.run(&["tree", "none.book", option, "-"]).status, 0);
    }
}

/// The nodes of some rising names by the documents: letters, number, depth and
/// width of each, from the names alone.
fn nodes(names: &[String], from: usize, found: &mut Vec<(Vec<u8>, [usize; 3])>) {
    let first = names[0].as_bytes();
    let number = found.len();
    let width = names.iter().map(String::len).max().unwrap_or(0);
    if names.len() == 1 {
        found.push((first[from..].to_vec(), [number, first.len() + 1, width]));
        return;
    }
    let last = names[names.len() - 1].as_bytes();
    let depth = first
        .iter()
        .zip(last)
        .take_while(|(one, other)| one == other)
        .count();
    found.push((first[from..depth].to_vec(), [number, depth, width]));
    for group in
        names.chunk_by(|one, other| one.as_bytes().get(depth) == other.as_bytes().get(depth))
    {
        nodes(group, depth, found);
    }
}

#[test]
fn random_trees_have_the_nodes_of_the_documents() {
    let mut numbers = Numbers(31);
    for _ in 0..10 {
        let count = 1 + numbers.below(60);
        let names = numbers.names(count);
        let folder = Folder::with("n.txt", names.join("\n").as_bytes());
        assert_eq!(folder.run(&["build", "n.txt"]).status, 0);
        let mut expected = Vec::new();
        nodes(&names, 0, &mut expected);
        let ran = folder.run(&["tree", "n.book", "--limit", "999"]);
        let lines: Vec<&str> = ran.out().lines().skip(1).collect();
        assert_eq!(lines.len(), expected.len());
        for (line, (letters, [number, depth, width])) in lines.into_iter().zip(expected) {
            let numbers = format!("  node {number}, depth {depth}, width {width}, ");
            assert!(line.contains(&numbers), "{line}");
            if let Ok(letters) = std::str::from_utf8(&letters) {
                let quoted = format!("\"{letters}\"");
                assert!(
                    letters.is_empty() || line.contains(&quoted),
                    "{line} {quoted}"
                );
            }
        }
    }
}
