//! Books in pieces are books, and spoiling them leads to refusal 2.

use model::{book_check, book_of, BookKind};
use vectors::damage::spoil_book;
use vectors::lists;
use vectors::pieces::Pieces;
use vectors::random::Random;

#[test]
fn pieces_are_put_together_as_the_layout_says() {
    for (names, block) in [
        (lists::example(), 2),
        (lists::example(), 4),
        (vec![], 9),
        (lists::stops(), 16),
        (lists::mirror(b'a', b'b', 200), 64),
        (lists::pairs(2000), 1),
    ] {
        for kind in BookKind::ALL {
            let names = lists::sorted_for(kind, names.clone());
            let mut pieces = Pieces::of(kind, block, &names);
            let book = book_of(kind, block, &names);
            assert_eq!(pieces.bytes(), book);
            pieces.settle();
            assert_eq!(pieces.bytes(), book);
        }
        let plain = Pieces::of(BookKind::Plain, block, &names);
        let columns = plain.in_kind(BookKind::Columns).bytes();
        assert_eq!(columns, book_of(BookKind::Columns, block, &names));
    }
}

#[test]
fn spoilt_books_are_mostly_refused() {
    let mut accepted = 0;
    for seed in 0..1000 {
        let random = &mut Random::from_seed(seed);
        let names = lists::grown(random, b"abc", 9, 6);
        let book = spoil_book(random, BookKind::Plain, 4, &names);
        accepted += usize::from(book_check(&book).code == 0);
    }
    assert!((20..400).contains(&accepted), "{accepted}");
}
