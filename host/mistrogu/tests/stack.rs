//! As much stack as the header says is enough, and no call touches a byte beside
//! what is lent to it: every call on every hostile book, and on the deepest,
//! widest and largest books there are, whole and worn; and those of two lists on
//! their lists, whole and cut. There are fences around all of it.

use fenced::apart::{last_lines, run_test, word};
use fenced::{on_stack, Fence, Fenced};
use mistrogu::{
    blocks_of, BUILD_STACK, LONGEST_BOOK, LONGEST_NAME, MOST_SALVAGED, MOST_STOPS, STACK,
};
use model::{book_check, book_of, write_list, BookKind};
use proved::{Answer, Counted, Kept, Row};
use vectors::folded::on_past_the_end;
use vectors::hostile::{kinds, DEEPER_THAN_ANY};
use vectors::lists::{self, Names};
use vectors::spelling::by_turns;

/// Bytes to be called with: a word on them, and the code that calls give.
struct Lent {
    about: String,
    bytes: Vec<u8>,
    code: usize,
}

/// Hostile books of every kind, small, deeper than any book, and the largest.
fn hostile_books() -> Vec<Lent> {
    let kinds = kinds().into_iter();
    kinds
        .flat_map(|kind| {
            let [small, deep] = [6, DEEPER_THAN_ANY].map(|count| kind.with_names(count));
            [small, deep, kind.largest()].map(|book| Lent {
                about: format!("{}, {} names", kind.how, book.trailer.names),
                bytes: book.bytes(),
                code: 2,
            })
        })
        .collect()
}

/// Folded books with hostile nodes of every kind over chains of names, of which
/// neighbours share no byte.
fn hostile_folded_books() -> Vec<Lent> {
    let names = by_turns(&lists::chain(b'a', 200));
    let kinds = kinds().into_iter();
    kinds
        .map(|kind| {
            let bytes = kind.over(BookKind::Folded, 64, &names).bytes();
            Lent {
                about: format!("folded, {}", kind.how),
                code: book_check(&bytes).code,
                bytes,
            }
        })
        .collect()
}

/// Books as column books: the same nodes, hostile or not, stored field by field.
fn as_columns(books: Vec<Lent>) -> Vec<Lent> {
    let books = books.into_iter();
    books
        .map(|lent| {
            let mut bytes = lent.bytes;
            let trailer = bytes.len() - 16;
            let number = |at| usize::from(u16::from_le_bytes([bytes[at], bytes[at + 1]]));
            let (start, nodes) = (number(trailer + 6), number(trailer + 8));
            let rows = bytes[start..start + 12 * nodes].to_vec();
            let columns = (0..6).flat_map(|field| {
                let of_node = rows.chunks(12);
                of_node.flat_map(move |row| [row[2 * field], row[2 * field + 1]])
            });
            let columns: Vec<u8> = columns.collect();
            bytes[start..start + 12 * nodes].copy_from_slice(&columns);
            bytes[trailer + 12..].copy_from_slice(&BookKind::Columns.mark());
            Lent {
                about: format!("columns, {}", lent.about),
                bytes,
                code: lent.code,
            }
        })
        .collect()
}

/// Lists of the deepest, the widest and the largest books of this kind. In folded
/// ones neighbours share no byte, so that what they share is found by going along
/// the block.
fn extreme_lists_for(kind: BookKind) -> Vec<(&'static str, Names)> {
    let lists = extreme_lists().into_iter();
    let for_kind = lists.map(|(about, names)| match kind {
        BookKind::Plain | BookKind::Columns => (about, names),
        BookKind::Folded => (about, by_turns(&lists::sorted_for(kind, names))),
    });
    for_kind
        .filter(|(_, names)| book_of(kind, 16, names).len() <= LONGEST_BOOK)
        .collect()
}

/// Lists of the deepest, the widest and the largest plain books.
fn extreme_lists() -> [(&'static str, Names); 6] {
    let deepest = [lists::chain(b'a', 200), lists::texts(&["b"])].concat();
    let largest = lists::with_book_length(BookKind::Plain, &lists::binary(2000), 16, LONGEST_BOOK);
    [
        ("chain", deepest),
        ("mirror", lists::mirror(b'a', b'b', 200)),
        ("fan", lists::fan(&[b'a'; 199])),
        ("pairs", lists::pairs(2000)),
        ("long names", lists::long(300)),
        ("largest book", largest),
    ]
}

/// Says what is done next: whoever looks why a process ended sees it.
fn say(call: &str, about: &str) {
    eprintln!("{call}: {about}");
}

/// A call that asks a question.
type Ask = fn(&[u8], &[u8]) -> Counted;

/// The five questions.
const ASKS: [(&str, Ask); 5] = [
    ("exact", proved::book_exact),
    ("place", proved::book_place),
    ("range", proved::book_range),
    ("nearest", proved::book_nearest),
    ("width", proved::book_width),
];

/// Makes every call that takes a book.
fn call_with_book(lent: &Lent, fence: Fence) {
    let Lent { about, bytes, code } = lent;
    let book = Fenced::of(bytes, fence);
    say("check", about);
    let checked = on_stack(STACK, || proved::book_check(&book));
    assert_eq!(checked.code, *code);

    say("read", about);
    let mut room = Fenced::of(&[0; LONGEST_NAME], fence);
    let read = on_stack(STACK, || proved::book_read(&book, 1, &mut room));
    assert_eq!(read.code, *code);

    let question = Fenced::of(&[b'a'; LONGEST_NAME], fence);
    for (call, ask) in ASKS {
        say(call, about);
        let asked = on_stack(STACK, || ask(&book, &question));
        assert_eq!(asked.code, *code);
        let looked = [asked.visits, asked.entries].map(|count| count > 0);
        assert_eq!(looked, [*code == 0; 2], "{call}: {about}");
    }
    say("batch", about);
    let batched = batch(&book, &question, fence);
    assert_eq!(batched.code, *code);
    say("clip and route", about);
    let announced = announce(&book, &question, checked.first, fence);
    let kind = BookKind::of_marked(bytes);
    let expected = match kind {
        Some(BookKind::Columns) => 2,
        _ => *code,
    };
    assert_eq!(
        announced.map(|answer| answer.code),
        [expected; 2],
        "{about}"
    );
    say("to columns and from columns", about);
    for (taken, convert) in CONVERSIONS {
        let expected = match *code {
            0 if kind == Some(taken) => [0, 4],
            _ => [2; 2],
        };
        assert_eq!(convert_all(&book, convert, fence), expected, "{about}");
    }
}

/// The two conversions, each with the kind that it takes.
const CONVERSIONS: [(BookKind, Convert); 2] = [
    (BookKind::Plain, proved::book_to_columns),
    (BookKind::Columns, proved::book_from_columns),
];

/// A call that converts a book.
type Convert = fn(&[u8], &mut [u8]) -> Answer;

/// What a conversion says with a room of just the book's length, and with one of one
/// byte less.
fn convert_all(book: &[u8], convert: Convert, fence: Fence) -> [usize; 2] {
    [book.len(), book.len().saturating_sub(1)].map(|space| {
        let mut room = Fenced::of(&vec![0; space], fence);
        on_stack(STACK, || convert(book, &mut room)).code
    })
}

/// The clip for this text, and the clips of a route, by a table of so many clips.
fn announce(book: &[u8], text: &Fenced<u8>, names: usize, fence: Fence) -> [Answer; 2] {
    let clips: Vec<u16> = (0..2000).rev().take(names).collect();
    let clips = Fenced::of(&clips, fence);
    let clip = on_stack(STACK, || proved::announce_clip(book, &clips, text));
    let positions: Vec<usize> = (0..names).rev().take(MOST_STOPS).collect();
    let positions = Fenced::of(&positions, fence);
    let mut room = Fenced::of(&vec![0; positions.len()], fence);
    let route = on_stack(STACK, || {
        proved::announce_route(book, &clips, &positions, &mut room)
    });
    let row = positions.iter().map(|&position| clips[position]);
    assert!(route.code != 0 || room.iter().copied().eq(row));
    [clip, route]
}

/// Asks 64 questions at once: parts of this one, in all kinds.
fn batch(book: &[u8], questions: &Fenced<u8>, fence: Fence) -> Answer {
    let row = |number: usize| Row {
        kind: 1 + number % 5,
        start: number,
        length: LONGEST_NAME - 2 * number,
    };
    let rows: Vec<Row> = (0..64).map(row).collect();
    let rows = Fenced::of(&rows, fence);
    let mut answers = Fenced::of(&[Answer::default(); 64], fence);
    on_stack(STACK, || {
        proved::book_batch(book, questions, &rows, &mut answers)
    })
}

/// Salvages what is left of these bytes, into a room that is always long enough, and
/// where there is something left into one that is just so long, and one byte shorter.
fn salvage(lent: &Lent, fence: Fence) -> Answer {
    let data = Fenced::of(&lent.bytes, fence);
    let blocks = blocks_of(&data).unwrap_or(0);
    let salvage = |space: usize| {
        say("salvage", &lent.about);
        let mut room = Fenced::of(&vec![0; space], fence);
        let mut report = Fenced::of(&vec![Kept::default(); blocks], fence);
        on_stack(STACK, || {
            proved::book_salvage(&data, &mut room, &mut report)
        })
    };
    let salvaged = salvage(MOST_SALVAGED);
    if salvaged.first > 0 {
        assert_eq!(salvage(salvaged.first), salvaged);
        assert_eq!(salvage(salvaged.first - 1).code, 4);
    }
    salvaged
}

/// A book of which every hundredth byte of the entries is another.
fn worn(lent: &Lent) -> Lent {
    let mut bytes = lent.bytes.clone();
    let told = bytes.len() - 12;
    let entries = usize::from(u16::from_le_bytes([bytes[told], bytes[told + 1]]));
    for byte in bytes[..entries].iter_mut().step_by(100) {
        *byte = byte.wrapping_add(1);
    }
    let about = format!("{}, worn", lent.about);
    Lent {
        about,
        bytes,
        code: 2,
    }
}

/// Builds a book of this kind of these bytes, be they a list or not.
fn build(kind: BookKind, lent: &Lent, fence: Fence) -> Answer {
    say("build", &lent.about);
    let list = Fenced::of(&lent.bytes, fence);
    let mut room = Fenced::of(&[0; LONGEST_BOOK], fence);
    let build = match kind {
        BookKind::Plain | BookKind::Columns => proved::book_build,
        BookKind::Folded => proved::book_build_folded,
    };
    on_stack(BUILD_STACK, || build(&list, 16, &mut room))
}

/// Makes all calls, with a fence on this side.
fn call_with_all(fence: Fence) {
    for lent in hostile_books() {
        call_with_book(&lent, fence);
        assert_eq!(salvage(&lent, fence).code, 0, "only nodes are hostile");
        for kind in BookKind::FULL {
            assert_ne!(build(kind, &lent, fence).code, 0);
        }
    }
    for lent in as_columns(hostile_books()) {
        call_with_book(&lent, fence);
        assert_eq!(
            salvage(&lent, fence).code,
            13,
            "the mark is that of columns"
        );
    }
    for lent in hostile_folded_books() {
        call_with_book(&lent, fence);
        assert_eq!(salvage(&lent, fence).code, 13, "the mark is folded");
    }
    for kind in BookKind::ALL {
        for (about, names) in extreme_lists_for(kind) {
            call_with_names(kind, about, &names, fence);
        }
    }
    let names = on_past_the_end();
    call_with_names(BookKind::Folded, "on past the end", &names, fence);
}

/// Makes all calls with the book of this kind of these names, with the book worn,
/// and with the list.
fn call_with_names(kind: BookKind, about: &str, names: &Names, fence: Fence) {
    let lent = |bytes: Vec<u8>| Lent {
        about: format!("{kind:?}, {about}"),
        bytes,
        code: 0,
    };
    let book = lent(book_of(kind, 16, names));
    call_with_book(&book, fence);
    call_with_book(&worn(&book), fence);
    let salvaged = match kind {
        BookKind::Plain => 0,
        BookKind::Folded | BookKind::Columns => 13,
    };
    for card in [&book, &worn(&book)] {
        assert_eq!(salvage(card, fence).code, salvaged);
    }
    assert_eq!(salvage(&lent(write_list(names)), fence).code, 13);
    assert_eq!(build(kind, &lent(write_list(names)), fence).code, 0);
}

/// Makes every call that takes two lists, be they lists or not.
fn call_with_two(about: &str, lists: [&[u8]; 2], fence: Fence) {
    let [first, second] = lists.map(|list| Fenced::of(list, fence));
    say("judge", about);
    let judged = on_stack(STACK, || proved::list_judge(&first, &second));

    for passed in [0, 1, 150, usize::MAX] {
        say("head", about);
        let head = on_stack(STACK, || proved::list_head(&first, &second, passed, passed));
        assert!(head.length == 0 || judged.code == 0);
    }
    let merge = |space: usize| {
        say("merge", about);
        let mut room = Fenced::of(&vec![0; space], fence);
        on_stack(STACK, || proved::list_merge(&first, &second, &mut room))
    };
    let merged = merge(first.len() + second.len());
    assert_eq!(merged.code == 0, judged.code == 0);
    if merged.code == 0 {
        assert_eq!(merge(merged.first).code, 0);
        assert_eq!(merge(merged.first - 1).code, 4);
    }
}

/// Makes all calls of two lists, with a fence on this side: of each list with
/// itself and with every second record of it, and with so much of it that its
/// last record is not whole.
fn call_with_lists(fence: Fence) {
    for (about, names) in extreme_lists() {
        let seconds: Names = names.iter().step_by(2).cloned().collect();
        let [list, seconds] = [&names, &seconds].map(|names| write_list(names));
        for second in [&list, &seconds, &Vec::new()] {
            call_with_two(about, [&list, second], fence);
            call_with_two(about, [second, &list], fence);
        }
        let cut = &list[..list.len() - 1];
        call_with_two(about, [cut, &list], fence);
        call_with_two(about, [&list, cut], fence);
    }
}

/// Runs the test of this name in a process of its own: these calls, with fences
/// on either side.
fn run_apart(test: &str, calls: fn(Fence)) {
    if word().is_some() {
        calls(Fence::Behind);
        return calls(Fence::Before);
    }
    let output = run_test(test, "all calls");
    let said = last_lines(&output);
    assert!(output.status.success(), "{} after\n{said}", output.status);
}

#[test]
fn the_stack_of_the_header_is_enough_and_nothing_beside_the_lent_is_touched() {
    let test = "the_stack_of_the_header_is_enough_and_nothing_beside_the_lent_is_touched";
    run_apart(test, call_with_all);
}

#[test]
fn so_it_is_with_two_lists() {
    run_apart("so_it_is_with_two_lists", call_with_lists);
}
