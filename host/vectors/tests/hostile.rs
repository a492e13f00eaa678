//! Hostile books are none, and by their nodes alone.

use format::LONGEST_BOOK;
use model::{book_check, book_of, BookKind};
use vectors::hostile::{any, kinds, Kind, DEEPER_THAN_ANY};
use vectors::lists;
use vectors::pieces::Pieces;
use vectors::random::Random;
use vectors::sets::{Call, Set};
use vectors::{asking, batching, checking, columns, reading};

/// All hostile books, small ones and the largest, with what is wrong.
fn all_books() -> Vec<(String, Pieces)> {
    let kinds = kinds().into_iter();
    kinds
        .flat_map(|kind| {
            let counts = [4, 5, 24, DEEPER_THAN_ANY, 2000].into_iter();
            let books = counts.map(|count| kind.with_names(count));
            let books: Vec<Pieces> = books.chain([kind.largest()]).collect();
            books.into_iter().map(move |book| (kind.how.clone(), book))
        })
        .collect()
}

/// The same pieces with the right nodes.
fn with_right_nodes(book: &Pieces) -> Pieces {
    let mut right = book.clone();
    right.nodes = Pieces::of(BookKind::Plain, book.trailer.block, &book.made_of).nodes;
    right.settle_trailer();
    right
}

#[test]
fn every_hostile_book_is_refused_with_2() {
    for (how, book) in all_books() {
        for kind in [BookKind::Plain, BookKind::Columns] {
            let bytes = book.clone().in_kind(kind).bytes();
            assert_eq!(bytes.len(), book.trailer.length, "{how}");
            assert!(bytes.len() <= LONGEST_BOOK, "{how}");
            assert_eq!(book_check(&bytes).code, 2, "{how}");
        }
    }
}

#[test]
fn with_the_right_nodes_the_same_pieces_are_a_book() {
    for (how, book) in all_books() {
        let right = with_right_nodes(&book);
        let bytes = right.bytes();
        assert_eq!(
            bytes,
            book_of(BookKind::Plain, book.trailer.block, &book.made_of),
            "{how}"
        );
        assert_eq!(book_check(&bytes).code, 0, "{how}");
        let front = right.trailer.node_table;
        assert_eq!(bytes[..front], book.bytes()[..front], "{how}");
    }
}

/// How many forks a walk that believes the nodes goes down into: from each fork
/// into the first fork in its row, if symbol and first name are as they should
/// be, the names are fewer and the depth is greater.
fn levels(book: &Pieces) -> usize {
    let (mut at, mut levels) = (0, 1);
    loop {
        let [_, depth, first, names, ..] = book.nodes[at];
        let leaves = book.nodes[at + 1..].iter().take_while(|node| node[3] == 1);
        let leaves = leaves.count();
        at += leaves + 1;
        let Some(&[symbol, deeper, child_first, fewer, ..]) = book.nodes.get(at) else {
            return levels;
        };
        let name = &book.made_of[first + leaves];
        let right_symbol = name.get(depth).map_or(0, |&byte| usize::from(byte) + 1);
        let goes_down = symbol == right_symbol && child_first == first + leaves;
        if !goes_down || fewer >= names || deeper <= depth {
            return levels;
        }
        levels += 1;
    }
}

#[test]
fn a_walk_that_believes_the_nodes_goes_down_deeper_than_any_book() {
    let deepest = [lists::chain(b'a', 200), lists::texts(&["b"])].concat();
    assert_eq!(levels(&Pieces::of(BookKind::Plain, 64, &deepest)), 200);
    let goes_deep = |kind: &Kind| {
        let books = [kind.with_names(2000), kind.largest()];
        books.iter().all(|book| levels(book) > 400)
    };
    let deeper: Vec<Kind> = kinds().into_iter().filter(goes_deep).collect();
    let deeper: Vec<&str> = deeper.iter().map(|kind| &kind.how[..]).collect();
    let nests = [
        "falling names",
        "even steps to 65535",
        "leap to 65535",
        "depths from 199",
        "two names fewer each",
        "below the deepest fork",
        "root of depth 200 over forks",
        "root of depth 201 over forks",
        "root of depth 256 over forks",
    ];
    assert_eq!(deeper, nests);
}

#[test]
fn a_nest_of_falling_names_stands_as_it_should() {
    let kinds = kinds();
    let falling = kinds.iter().find(|kind| kind.how == "falling names");
    let book = falling.unwrap().with_names(2000);
    assert_eq!(book.nodes.len(), 1999);
    assert_eq!(book.nodes[0], [0, 0, 0, 2000, 1999, 2]);
    // the first name is two bytes of 0, the symbol of which is 1; all have two
    assert_eq!(book.nodes[1], [1, 1, 0, 1999, 1998, 2]);
    assert_eq!(book.nodes[2], [1, 2, 0, 1998, 1997, 2]);
    assert_eq!(book.nodes[3], [0, 3, 0, 1997, 1996, 2]);
    assert_eq!(book.nodes[1998], [0, 1998, 0, 2, 1, 2]);
    assert_eq!(book.trailer.block, 64);
    let small = falling.unwrap().with_names(DEEPER_THAN_ANY);
    assert!(small.trailer.length < 3_700, "{}", small.trailer.length);
}

#[test]
fn books_of_any_kind_over_any_names_are_mostly_refused() {
    let mut accepted = 0;
    for seed in 0..1000 {
        let random = &mut Random::from_seed(seed);
        let count = random.between(2, 40);
        let mut names = lists::grown(random, b"abc", count, 6);
        names.extend(lists::texts(&["d", "de"]));
        let block = random.between(1, 64);
        let book = any(random, BookKind::Plain, block, &names).bytes();
        accepted += usize::from(book_check(&book).code == 0);
    }
    assert!(accepted < 100, "{accepted}");
}

/// Asserts that every kind is in the set, and that all of them are refused.
fn assert_every_kind_in<C: Call>(set: &Set<C>) {
    let mut hostile = set.cases();
    hostile.retain(|case| case.purpose().starts_with("hostile, "));
    for kind in kinds() {
        let words = format!("hostile, {}: ", kind.how);
        let found = hostile
            .iter()
            .any(|case| case.purpose().starts_with(&words));
        assert!(found, "{} in {}", kind.how, set.name);
    }
    for case in hostile {
        let is_refused = case.outcome().starts_with("2 0 0");
        assert!(is_refused, "{} in {}", case.purpose(), set.name);
    }
}

#[test]
fn every_kind_is_in_every_set_of_a_call_that_takes_a_book() {
    assert_every_kind_in(&checking::SET);
    assert_every_kind_in(&reading::SET);
    assert_every_kind_in(&asking::SET);
    assert_every_kind_in(&batching::SET);
    assert_every_kind_in(&columns::CONVERT);
    assert_every_kind_in(&columns::CHECK);
    assert_every_kind_in(&columns::READ);
    assert_every_kind_in(&columns::ASK);
    assert_every_kind_in(&columns::BATCH);
}
