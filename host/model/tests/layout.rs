//! Document 01, "Layout of a book", with document 02's sixth field of a node.

mod common;

use common::{built, mar_names, names};
use model::layout::{block_table, entries, node_count, node_table, stored_count};
use model::tree::{tree, Node};
use model::{book_check, book_of, BookKind, Rule};

/// The six numbers of each node, in the order of the node table.
fn flat(names: &[Vec<u8>]) -> Vec<[usize; 6]> {
    let mut rows = Vec::new();
    if let Some(root) = tree(Rule::Plain, names) {
        push_flat(&root, &mut rows);
    }
    rows
}

fn push_flat(node: &Node, rows: &mut Vec<[usize; 6]>) {
    rows.push([
        node.symbol,
        node.depth,
        node.first,
        node.names,
        node.nodes,
        node.width,
    ]);
    for child in &node.children {
        push_flat(child, rows);
    }
}

/// How many nodes the longest path from here holds, this one counted.
fn longest_path(node: &Node) -> usize {
    let below = node.children.iter().map(longest_path).max();
    1 + below.unwrap_or(0)
}

/// a, aa, aaa and so on up to 200 bytes, then b: the deepest tree there is.
fn deepest_list() -> Vec<Vec<u8>> {
    let mut names: Vec<Vec<u8>> = (1..=200).map(|length| vec![b'a'; length]).collect();
    names.push(b"b".to_vec());
    names
}

// Entries

#[test]
fn an_entry_is_shared_count_length_of_rest_and_rest() {
    assert_eq!(
        entries(64, &mar_names()),
        b"\x00\x03Mar\x03\x03ina\x03\x0Aket Square"
    );
}

#[test]
fn the_first_name_of_each_block_stores_count_0() {
    assert_eq!(
        entries(1, &mar_names()),
        b"\x00\x03Mar\x00\x06Marina\x00\x0DMarket Square"
    );
    assert_eq!(
        entries(2, &mar_names()),
        b"\x00\x03Mar\x03\x03ina\x00\x0DMarket Square"
    );
}

#[test]
fn the_stored_count_is_the_greatest_possible() {
    let list = names(&["astral", "astronomy", "astronomyx", "b"]);
    // front coding of astronomy after astral is (4, onomy)
    assert_eq!(
        entries(4, &list),
        b"\x00\x06astral\x04\x05onomy\x09\x01x\x00\x01b"
    );
    let counts: Vec<usize> = (0..4).map(|at| stored_count(4, &list, at)).collect();
    assert_eq!(counts, [0, 4, 9, 0]);
}

#[test]
fn a_count_may_be_199_and_a_rest_200() {
    let list = vec![vec![b'a'; 199], vec![b'a'; 200], vec![b'b'; 200]];
    let bytes = entries(3, &list);
    assert_eq!(bytes.len(), 2 + 199 + 2 + 1 + 2 + 200);
    assert_eq!(bytes[201..204], [199, 1, b'a']);
    assert_eq!(bytes[204..206], [0, 200]);
}

#[test]
fn the_rest_is_never_empty() {
    let list = deepest_list();
    for block in [1, 2, 16, 64] {
        for (position, name) in list.iter().enumerate() {
            assert!(stored_count(block, &list, position) < name.len());
        }
    }
}

// Block table

#[test]
fn the_last_block_holds_1_to_k_names() {
    let list = common::many_names(6);
    // entries of a block's first name: 4 bytes; of any other: 3 bytes
    assert_eq!(
        block_table(1, &list),
        [0, 0, 4, 0, 8, 0, 12, 0, 16, 0, 20, 0]
    );
    assert_eq!(block_table(2, &list), [0, 0, 7, 0, 14, 0]);
    assert_eq!(block_table(4, &list), [0, 0, 13, 0]);
    assert_eq!(block_table(5, &list), [0, 0, 16, 0]);
    assert_eq!(block_table(6, &list), [0, 0]);
    assert_eq!(block_table(64, &list), [0, 0]);
}

#[test]
fn offsets_above_255_use_their_high_byte() {
    let list = vec![vec![1; 200], vec![2; 200], vec![3; 200]];
    // 202 = 00CA, 404 = 0194
    assert_eq!(block_table(1, &list), [0x00, 0x00, 0xCA, 0x00, 0x94, 0x01]);
}

// Node table

#[test]
fn the_nodes_of_the_worked_example() {
    assert_eq!(
        flat(&mar_names()),
        [
            [0, 3, 0, 3, 4, 13],
            [0, 4, 0, 1, 1, 3],
            [106, 7, 1, 1, 1, 6],
            [108, 14, 2, 1, 1, 13]
        ]
    );
}

#[test]
fn the_block_size_does_not_touch_the_node_table() {
    let book = |block| book_of(BookKind::Plain, block, &mar_names());
    assert_eq!(
        book(2)[29..77],
        node_table(BookKind::Plain, &mar_names())[..]
    );
    assert_eq!(
        book(4)[24..72],
        node_table(BookKind::Plain, &mar_names())[..]
    );
}

#[test]
fn a_single_name_is_a_root_that_is_a_leaf() {
    #[rustfmt::skip]
    let expected = [
        0x00, 0x03, 0x4D, 0x61, 0x72,
        0x00, 0x00,
        0x00, 0x00, 0x04, 0x00, 0x00, 0x00, 0x01, 0x00, 0x01, 0x00, 0x03, 0x00,
        0x01, 0x00, 0x01, 0x00, 0x05, 0x00, 0x07, 0x00, 0x01, 0x00, 0x23, 0x00,
        0x4E, 0x42, 0x4B, 0x32,
    ];
    assert_eq!(expected.len(), 35);
    assert_eq!(built(&names(&["Mar"]), 1), expected);
    assert_eq!(flat(&names(&["Mar"])), [[0, 4, 0, 1, 1, 3]]);
}

#[test]
fn bytes_0_and_255_in_a_book_written_by_hand() {
    // The names 00, 00 00 and FF; symbols 1 0, 1 1 0 and 256 0. The root has
    // depth 0, its first child holds the two names that begin with byte 0.
    let list = vec![vec![0], vec![0, 0], vec![255]];
    #[rustfmt::skip]
    let expected = [
        0x00, 0x01, 0x00,  0x01, 0x01, 0x00,  0x00, 0x01, 0xFF,
        0x00, 0x00,
        0x00, 0x00, 0x00, 0x00, 0x00, 0x00, 0x03, 0x00, 0x05, 0x00, 0x02, 0x00,
        0x01, 0x00, 0x01, 0x00, 0x00, 0x00, 0x02, 0x00, 0x03, 0x00, 0x02, 0x00,
        0x00, 0x00, 0x02, 0x00, 0x00, 0x00, 0x01, 0x00, 0x01, 0x00, 0x01, 0x00,
        0x01, 0x00, 0x03, 0x00, 0x01, 0x00, 0x01, 0x00, 0x01, 0x00, 0x02, 0x00,
        0x00, 0x01, 0x02, 0x00, 0x02, 0x00, 0x01, 0x00, 0x01, 0x00, 0x01, 0x00,
        0x03, 0x00, 0x03, 0x00, 0x09, 0x00, 0x0B, 0x00, 0x05, 0x00, 0x57, 0x00,
        0x4E, 0x42, 0x4B, 0x32,
    ];
    assert_eq!(expected.len(), 87);
    assert_eq!(built(&list, 3), expected);
    assert_eq!(book_check(&expected), common::yes(3, 3));
}

#[test]
fn a_child_stands_with_its_own_row_before_its_next_sibling() {
    // Rows of one node each, set in as deep as the node stands in the tree.
    let list = names(&["ab", "ac", "ba", "bb", "bbb"]);
    #[rustfmt::skip]
    let expected = [
        [0, 0, 0, 5, 9, 3],
            [98, 1, 0, 2, 3, 2],
                [99, 3, 0, 1, 1, 2],
                [100, 3, 1, 1, 1, 2],
            [99, 1, 2, 3, 5, 3],
                [98, 3, 2, 1, 1, 2],
                [99, 2, 3, 2, 3, 3],
                    [0, 3, 3, 1, 1, 2],
                    [99, 4, 4, 1, 1, 3],
    ];
    assert_eq!(flat(&list), expected);
}

#[test]
fn children_rise_by_symbol_with_the_end_symbol_first() {
    let mut list = vec![b"M".to_vec()];
    list.extend((0..=255).map(|byte| vec![b'M', byte]));
    let root = tree(Rule::Plain, &list).expect("there are names");
    let found: Vec<usize> = root.children.iter().map(|child| child.symbol).collect();
    let expected: Vec<usize> = (0..=256).collect();
    assert_eq!(found, expected);
    assert_eq!(root.nodes, 258);
}

#[test]
fn a_root_may_have_depth_0_and_is_written_with_symbol_0() {
    assert_eq!(
        flat(&names(&["Bar", "Mar"])),
        [[0, 0, 0, 2, 3, 3], [67, 4, 0, 1, 1, 3], [78, 4, 1, 1, 1, 3]]
    );
}

/// The sixth field of the root and of each of its children.
fn widths(texts: &[&str]) -> (usize, Vec<usize>) {
    let root = tree(Rule::Plain, &names(texts)).expect("there are names");
    let below = root.children.iter().map(|child| child.width).collect();
    (root.width, below)
}

#[test]
fn a_fork_has_the_width_of_its_longest_name_wherever_that_stands() {
    assert_eq!(widths(&["aaaa", "b", "cc"]), (4, vec![4, 1, 2]));
    assert_eq!(widths(&["a", "bbbb", "cc"]), (4, vec![1, 4, 2]));
    assert_eq!(widths(&["a", "bb", "cccc"]), (4, vec![1, 2, 4]));
    assert_eq!(widths(&["aa", "bb", "cc"]), (2, vec![2, 2, 2]));
    // below a child that is a fork, behind its own first name
    assert_eq!(widths(&["a", "aaaa", "aab", "cc"]), (4, vec![4, 2]));
}

#[test]
fn a_leaf_has_the_width_of_its_name_which_is_its_depth_less_1() {
    for length in [1, 2, 199, 200] {
        let rows = flat(&[vec![b'n'; length]]);
        assert_eq!(rows, [[0, length + 1, 0, 1, 1, length]]);
    }
}

#[test]
fn every_width_is_the_greatest_length_in_the_node_s_stretch_of_names() {
    let mixed = names(&["a", "ab", "abcd", "abd", "b", "bcdef", "bd", "c"]);
    for list in [deepest_list(), mixed, common::many_names(600), mar_names()] {
        for [_, _, first, count, _, width] in flat(&list) {
            let stretch = &list[first..first + count];
            assert_eq!(stretch.iter().map(Vec::len).max(), Some(width));
        }
    }
}

#[test]
fn the_deepest_chain_has_a_path_of_201_nodes() {
    let list = deepest_list();
    let root = tree(Rule::Plain, &list).expect("there are names");
    assert_eq!(longest_path(&root), 201);
    let book = built(&list, 64);
    assert_eq!(book_check(&book), common::yes(201, 64));
}

#[test]
fn the_deepest_chain_has_every_depth_from_0_to_201() {
    let mut depths: Vec<usize> = flat(&deepest_list()).iter().map(|row| row[1]).collect();
    depths.sort();
    depths.dedup();
    let expected: Vec<usize> = (0..=201).collect();
    assert_eq!(depths, expected);
}

#[test]
fn m_reaches_2n_minus_1_where_every_inner_node_has_two_children() {
    assert_eq!(node_count(Rule::Plain, &deepest_list()), 2 * 201 - 1);
    assert_eq!(node_count(Rule::Plain, &names(&["Mar"])), 1);
    assert_eq!(node_count(Rule::Plain, &names(&["Bar", "Mar"])), 3);
}

#[test]
fn m_is_n_plus_1_where_the_root_has_all_leaves() {
    let list: Vec<Vec<u8>> = (0..=255).map(|byte| vec![byte]).collect();
    assert_eq!(node_count(Rule::Plain, &list), 257);
}

// Trailer

#[test]
fn the_trailer_tells_where_the_parts_begin() {
    let list = deepest_list();
    let book = built(&list, 7);
    let number = |at: usize| usize::from(book[at]) + 256 * usize::from(book[at + 1]);
    let trailer = book.len() - 16;
    let entries_length = entries(7, &list).len();
    assert_eq!(number(trailer), 201);
    assert_eq!(number(trailer + 2), 7);
    assert_eq!(number(trailer + 4), entries_length);
    // 201 names are 28 blocks of 7 and one of 5
    assert_eq!(number(trailer + 6), entries_length + 2 * 29);
    assert_eq!(number(trailer + 8), 401);
    assert_eq!(number(trailer + 10), book.len());
    assert_eq!(&book[trailer + 12..], b"NBK2");
}

#[test]
fn the_parts_stand_without_gaps() {
    let list = deepest_list();
    let parts = [
        entries(16, &list),
        block_table(16, &list),
        node_table(BookKind::Plain, &list),
    ];
    let book = built(&list, 16);
    assert_eq!(book[..book.len() - 16], parts.concat());
}

#[test]
fn the_book_of_no_names_is_16_bytes_with_k_as_given() {
    for block in 1..=64u8 {
        let expected = [
            0, 0, block, 0, 0, 0, 0, 0, 0, 0, 16, 0, 0x4E, 0x42, 0x4B, 0x32,
        ];
        assert_eq!(built(&[], usize::from(block)), expected);
        assert_eq!(book_check(&expected), common::yes(0, usize::from(block)));
    }
}

#[test]
fn laying_out_applies_no_limit_and_takes_every_list() {
    // These are no books, but tests of the check want their bytes.
    let twice = names(&["Mar", "Mar"]);
    let falling = names(&["Marina", "Mar"]);
    let nameless = vec![vec![]];
    let long = vec![vec![b'a'; 300]];
    for list in [twice, falling, nameless, long] {
        for block in [0, 1, 2, 65, 65_536, usize::MAX] {
            let book = book_of(BookKind::Plain, block, &list);
            assert_eq!(&book[book.len() - 4..], b"NBK2");
        }
    }
    assert_eq!(book_of(BookKind::Plain, 0, &[]).len(), 16);
}
