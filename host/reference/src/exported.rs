//! The calls under the names of the proved library's, for C: so every script
//! that measures that one measures this one as well. reference.sh makes the
//! archive.

use crate::{Answer, Counted, Head, Kept, Row};
use core::slice::{from_raw_parts, from_raw_parts_mut};

#[no_mangle]
unsafe extern "C" fn book_build(
    list: *const u8,
    length: usize,
    block: usize,
    room: *mut u8,
    space: usize,
) -> Answer {
    crate::book_build(
        from_raw_parts(list, length),
        block,
        from_raw_parts_mut(room, space),
    )
}

#[no_mangle]
unsafe extern "C" fn book_build_folded(
    list: *const u8,
    length: usize,
    block: usize,
    room: *mut u8,
    space: usize,
) -> Answer {
    crate::book_build_folded(
        from_raw_parts(list, length),
        block,
        from_raw_parts_mut(room, space),
    )
}

#[no_mangle]
unsafe extern "C" fn book_to_columns(
    book: *const u8,
    length: usize,
    room: *mut u8,
    space: usize,
) -> Answer {
    crate::book_to_columns(
        from_raw_parts(book, length),
        from_raw_parts_mut(room, space),
    )
}

#[no_mangle]
unsafe extern "C" fn book_from_columns(
    book: *const u8,
    length: usize,
    room: *mut u8,
    space: usize,
) -> Answer {
    crate::book_from_columns(
        from_raw_parts(book, length),
        from_raw_parts_mut(room, space),
    )
}

#[no_mangle]
unsafe extern "C" fn book_check(book: *const u8, length: usize) -> Answer {
    crate::book_check(from_raw_parts(book, length))
}

#[no_mangle]
unsafe extern "C" fn book_read(
    book: *const u8,
    length: usize,
    position: usize,
    room: *mut u8,
    space: usize,
) -> Answer {
    crate::book_read(
        from_raw_parts(book, length),
        position,
        from_raw_parts_mut(room, space),
    )
}

#[no_mangle]
unsafe extern "C" fn book_exact(b: *const u8, n: usize, q: *const u8, m: usize) -> Counted {
    crate::book_exact(from_raw_parts(b, n), from_raw_parts(q, m))
}

#[no_mangle]
unsafe extern "C" fn book_place(b: *const u8, n: usize, q: *const u8, m: usize) -> Counted {
    crate::book_place(from_raw_parts(b, n), from_raw_parts(q, m))
}

#[no_mangle]
unsafe extern "C" fn book_range(b: *const u8, n: usize, q: *const u8, m: usize) -> Counted {
    crate::book_range(from_raw_parts(b, n), from_raw_parts(q, m))
}

#[no_mangle]
unsafe extern "C" fn book_nearest(b: *const u8, n: usize, q: *const u8, m: usize) -> Counted {
    crate::book_nearest(from_raw_parts(b, n), from_raw_parts(q, m))
}

#[no_mangle]
unsafe extern "C" fn book_width(b: *const u8, n: usize, q: *const u8, m: usize) -> Counted {
    crate::book_width(from_raw_parts(b, n), from_raw_parts(q, m))
}

#[no_mangle]
unsafe extern "C" fn book_batch(
    book: *const u8,
    length: usize,
    questions: *const u8,
    space: usize,
    rows: *const Row,
    count: usize,
    answers: *mut Answer,
    places: usize,
) -> Answer {
    crate::book_batch(
        from_raw_parts(book, length),
        from_raw_parts(questions, space),
        from_raw_parts(rows, count),
        from_raw_parts_mut(answers, places),
    )
}

#[no_mangle]
unsafe extern "C" fn book_salvage(
    data: *const u8,
    length: usize,
    room: *mut u8,
    space: usize,
    report: *mut Kept,
    rows: usize,
) -> Answer {
    crate::book_salvage(
        from_raw_parts(data, length),
        from_raw_parts_mut(room, space),
        from_raw_parts_mut(report, rows),
    )
}

#[no_mangle]
unsafe extern "C" fn list_merge(
    first: *const u8,
    length: usize,
    second: *const u8,
    other: usize,
    room: *mut u8,
    space: usize,
) -> Answer {
    crate::list_merge(
        from_raw_parts(first, length),
        from_raw_parts(second, other),
        from_raw_parts_mut(room, space),
    )
}

#[no_mangle]
unsafe extern "C" fn list_judge(a: *const u8, n: usize, b: *const u8, m: usize) -> Answer {
    crate::list_judge(from_raw_parts(a, n), from_raw_parts(b, m))
}

#[no_mangle]
unsafe extern "C" fn list_head(
    first: *const u8,
    length: usize,
    second: *const u8,
    other: usize,
    passed_first: usize,
    passed_second: usize,
) -> Head {
    crate::list_head(
        from_raw_parts(first, length),
        from_raw_parts(second, other),
        passed_first,
        passed_second,
    )
}

#[no_mangle]
unsafe extern "C" fn announce_clip(
    book: *const u8,
    length: usize,
    clips: *const u16,
    count: usize,
    text: *const u8,
    size: usize,
) -> Answer {
    crate::announce_clip(
        from_raw_parts(book, length),
        from_raw_parts(clips, count),
        from_raw_parts(text, size),
    )
}

#[no_mangle]
unsafe extern "C" fn announce_route(
    book: *const u8,
    length: usize,
    clips: *const u16,
    count: usize,
    positions: *const usize,
    stops: usize,
    room: *mut u16,
    places: usize,
) -> Answer {
    crate::announce_route(
        from_raw_parts(book, length),
        from_raw_parts(clips, count),
        from_raw_parts(positions, stops),
        from_raw_parts_mut(room, places),
    )
}
