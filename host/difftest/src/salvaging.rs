//! Random calls of `book_salvage`; and, by the proved library alone, that bytes
//! of one block tell on no other.

use crate::agreeing::same_answer;
use crate::books::{any_block, any_book};
use crate::lent::{any_room, any_room_length, hex, lend, Lent};
use crate::shapes::any_names;
use fenced::{on_stack, Fenced};
use format::{LONGEST_BOOK, MOST_NAMES};
use mistrogu::STACK;
use model::BookKind;
use proved::Kept;
use vectors::lists::{self, Names};
use vectors::pieces::Pieces;
use vectors::random::Random;
use vectors::salvaging::{blocks_told, records_length};
use vectors::wear;

/// How many report rows are watched beside those lent.
const WATCHED: usize = 2;

/// Makes one call of both programs: the code they agree on, or the whole case.
pub fn run(random: &mut Random) -> Result<usize, String> {
    let data = any_worn(random);
    let blocks = blocks_told(&data);
    let rows = any_number_of_rows(random, blocks);
    let room_length = any_room_length(random, records_length(&data, blocks));
    let room = any_room(random, room_length);
    let report = Lent::any(random, rows, WATCHED, any_row);

    let (mut expected_room, mut found_room) = (room.clone(), room.clone());
    let (mut expected_report, mut found_report) = (report.clone(), report.clone());
    let expected = salvage_by_model(&data, expected_room.room(), expected_report.room());
    let (lent_room, lent_report) = (found_room.room(), found_report.room());
    let found = on_stack(STACK, || {
        proved::book_salvage(&data, lent_room, lent_report)
    });
    let same_room = expected_room == found_room;
    if same_answer(expected, found) && same_room && expected_report == found_report {
        return Ok(expected.code);
    }
    Err([
        format!("worn book {}", hex(&data)),
        format!("room {room_length}, rows {rows}, {WATCHED} watched beside them"),
        format!("expected {expected:?}"),
        format!("found    {found:?}"),
        told("room", [&room, &expected_room, &found_room], hex),
        told("report", [&report, &expected_report, &found_report], shown),
    ]
    .join("\n"))
}

/// What was lent before the call, and what both programs left of it.
fn told<T: Copy + PartialEq>(
    what: &str,
    [before, expected, found]: [&Lent<T>; 3],
    show: impl Fn(&[T]) -> String + Copy,
) -> String {
    [
        format!("{what} differs at {:?}", expected.first_difference(found)),
        format!("{what} before   {}", before.shown(show)),
        format!("{what} expected {}", expected.shown(show)),
        format!("{what} found    {}", found.shown(show)),
    ]
    .join("\n")
}

/// Report rows, each as its two numbers.
fn shown(rows: &[Kept]) -> String {
    let rows = rows.iter();
    let rows: Vec<String> = rows
        .map(|row| format!("({}, {})", row.kept, row.names))
        .collect();
    rows.join(" ")
}

/// The second program's salvage, with report rows as the proved library has them.
fn salvage_by_model(data: &[u8], room: &mut [u8], report: &mut [Kept]) -> model::Answer {
    let mut own: Vec<model::Kept> = report.iter().copied().map(model_row).collect();
    let answer = model::book_salvage(data, room, &mut own);
    for (row, own) in report.iter_mut().zip(own) {
        *row = proved_row(own);
    }
    answer
}

/// A worn book, to be lent: mostly worn in one way, now and then in another place,
/// too, or not at all, or spoilt as any book is.
fn any_worn(random: &mut Random) -> Fenced<u8> {
    if random.once_in(6) {
        return any_book(random).0;
    }
    let pieces = any_pieces(random);
    let mut data = match random.below(8) {
        0 => pieces.bytes(),
        _ => wear::any(random, pieces),
    };
    if random.once_in(8) && !data.is_empty() {
        wear::wear_span(random, &mut data);
    }
    lend(random, &data)
}

/// A book in pieces, with all its nodes or, so that it is short, with none.
fn any_pieces(random: &mut Random) -> Pieces {
    let block = any_block(random);
    let mut pieces = Pieces::of(BookKind::Plain, block, &any_own_names(random, block));
    if random.once_in(2) {
        pieces.nodes.clear();
        pieces.settle_trailer();
    }
    pieces
}

/// A rising list: now and then one whose records are long and its entries short.
fn any_own_names(random: &mut Random, block: usize) -> Names {
    match random.below(100) {
        0 => lists::alike(random.between(1, MOST_NAMES)),
        1..=4 => lists::alike(random.between(1, 100)),
        _ => any_names(random, BookKind::Plain, block),
    }
}

/// How many report rows are lent where there are so many blocks: mostly as many.
fn any_number_of_rows(random: &mut Random, blocks: usize) -> usize {
    match random.below(16) {
        0 => 0,
        1 => blocks + 1,
        2 => blocks.saturating_sub(1),
        3 if random.once_in(4) => random.below(MOST_NAMES + 2),
        _ => blocks,
    }
}

/// A report row with any numbers in it.
fn any_row(random: &mut Random) -> Kept {
    Kept {
        kept: random.any() as usize,
        names: random.any() as usize,
    }
}

/// The same row as the second program has it.
fn model_row(row: Kept) -> model::Kept {
    model::Kept {
        kept: row.kept,
        names: row.names,
    }
}

/// The same row as the proved library has it.
fn proved_row(row: model::Kept) -> Kept {
    Kept {
        kept: row.kept,
        names: row.names,
    }
}

/// Salvages two worn books that differ inside one block's span: 0, where every
/// other block has the same row and the same names in both, or the whole case.
pub fn apart(random: &mut Random) -> Result<usize, String> {
    let pieces = pieces_that_fit(random);
    let (one, spans) = wear::any_blocks(random, pieces);
    let block = random.below(spans.len());
    let mut other = one.clone();
    for _ in 0..random.between(1, 3) {
        wear::wear_span(random, &mut other[spans[block].clone()]);
    }
    let [one, other] = [one, other].map(|data| lend(random, &data));
    hold_apart(random, [&one, &other], spans.len(), block).map_err(|difference| {
        let [one, other] = [&one, &other].map(|data| hex(data));
        format!("{difference}\nblock {block} differs\none   {one}\nother {other}")
    })
}

/// A book in pieces that has a name and no more bytes than a book can have; where
/// it has too many, it loses its nodes, and if that is not enough, all.
fn pieces_that_fit(random: &mut Random) -> Pieces {
    let mut pieces = any_pieces(random);
    if pieces.trailer.length > LONGEST_BOOK {
        pieces.nodes.clear();
        pieces.settle_trailer();
    }
    match pieces.entries.len() {
        1..=MOST_NAMES if pieces.trailer.length <= LONGEST_BOOK => pieces,
        _ => Pieces::of(BookKind::Plain, 2, &lists::example()),
    }
}

/// Asserts that what is salvaged of both is the same but for this block.
fn hold_apart(
    random: &mut Random,
    [one, other]: [&[u8]; 2],
    blocks: usize,
    block: usize,
) -> Result<usize, String> {
    let [mut one, mut other] = [
        salvaged(random, one, blocks)?,
        salvaged(random, other, blocks)?,
    ];
    one.remove(block);
    other.remove(block);
    match one.iter().zip(&other).position(|(one, other)| one != other) {
        None => Ok(0),
        Some(at) => {
            let number = at + usize::from(at >= block);
            let (one, other) = (&one[at], &other[at]);
            Err(format!("block {number}\none   {one:?}\nother {other:?}"))
        }
    }
}

/// What the proved library gives of each block, its row and its records, in a room
/// that is long enough.
fn salvaged(
    random: &mut Random,
    data: &[u8],
    blocks: usize,
) -> Result<Vec<(Kept, Vec<u8>)>, String> {
    let spare = random.below(3);
    let mut room = lend(random, &vec![0; records_length(data, blocks) + spare]);
    let mut report = lend(random, &vec![Kept::default(); blocks]);
    let answer = on_stack(STACK, || proved::book_salvage(data, &mut room, &mut report));
    let records = match answer.code {
        0 => room.get(..answer.first),
        _ => None,
    };
    let parted = records.and_then(|records| parted(records, &report));
    parted.ok_or_else(|| format!("{answer:?}\nof {}\nreport {}", hex(data), shown(&report)))
}

/// The records of each block, with its row, if there are just as many as the rows
/// say.
fn parted(records: &[u8], report: &[Kept]) -> Option<Vec<(Kept, Vec<u8>)>> {
    let mut unread = records;
    let mut blocks = Vec::new();
    for &row in report {
        let mut own = Vec::new();
        for _ in 0..row.names {
            let (record, rest) = unread.split_at_checked(1 + usize::from(*unread.first()?))?;
            own.extend(record);
            unread = rest;
        }
        blocks.push((row, own));
    }
    unread.is_empty().then_some(blocks)
}
