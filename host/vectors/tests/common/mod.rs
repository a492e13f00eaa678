//! What several test files need: nearest's number, and how far a question looks,
//! found by another way than the second program's.

// Each test file is a program of its own and uses only some of these.
#![allow(dead_code)]

use model::BookKind;

/// How many leading bytes two names share in a book of this kind.
pub fn shared(kind: BookKind, one: &[u8], other: &[u8]) -> usize {
    let is_same = |(one, other): &(&u8, &u8)| match kind {
        BookKind::Plain | BookKind::Columns => one == other,
        BookKind::Folded => one.eq_ignore_ascii_case(other),
    };
    one.iter().zip(other).take_while(is_same).count()
}

/// How many leading bytes of a question to light where so many are shared: all of
/// them, unless a letter goes on behind them; then what stands before that letter.
pub fn lit(question: &[u8], shared: usize) -> usize {
    let begins = |byte: &u8| byte >> 6 != 0b10;
    match question.get(shared) {
        None => shared,
        Some(byte) if begins(byte) => shared,
        Some(_) => question[..shared].iter().rposition(begins).unwrap_or(0),
    }
}

/// Holds nearest's two numbers to the names of a book of this kind: no name shares more with the question
/// than the one at the position, and of what it shares no half letter is lit. Gives
/// whether that is less than what is shared.
pub fn hold_nearest(
    kind: BookKind,
    names: &[Vec<u8>],
    question: &[u8],
    position: usize,
    number: usize,
) -> bool {
    let counts = names.iter().map(|name| shared(kind, name, question));
    let count = shared(kind, &names[position], question);
    assert_eq!(counts.max(), Some(count), "{question:?}");
    assert_eq!(number, lit(question, count), "{question:?}");
    number < count
}

/// Visits and entries of a question to the names of a book of this kind, with blocks
/// of so many: no tree is there, but a run of names that gets shorter.
pub fn look(kind: BookKind, block: usize, names: &[Vec<u8>], question: &[u8]) -> [usize; 2] {
    let mut run = 0..names.len();
    let mut visits = usize::from(!run.is_empty());
    while run.len() > 1 {
        // In order, all of them share what the first and the last share.
        let depth = shared(kind, &names[run.start], &names[run.end - 1]);
        let fits =
            |&at: &usize| depth <= question.len() && goes_on(kind, &names[at], question, depth);
        let fitting: Vec<usize> = run.clone().filter(fits).collect();
        let [first, ..] = fitting[..] else { break };
        run = first..first + fitting.len();
        visits += 1;
    }
    match visits {
        0 => [0, 0],
        _ => [visits, run.start % block + 1],
    }
}

/// Whether name and question have the same letter at this place, or both end there.
fn goes_on(kind: BookKind, name: &[u8], question: &[u8], place: usize) -> bool {
    match (name.get(place..=place), question.get(place..=place)) {
        (Some(one), Some(other)) => shared(kind, one, other) == 1,
        (one, other) => one == other,
    }
}
