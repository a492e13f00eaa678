//! Every call that is measured, with all that goes into it.

use crate::loaded::Loaded;
use crate::merging;
use crate::salvaging;
use crate::{answered, Numbers};
use compare::mix::{positions, questions, two_lists, EACH};
use compare::sorted::Sorted;
use compare::stations::{stations, BLOCK};
use compare::steps::{Step, Subject, LIBRARY, MODEL, REFERENCE, ROWS, SORTED};
use format::{Kind, LONGEST_BOOK, LONGEST_NAME, MOST_NAMES};
use model::questions::{look_from, nearest_from, Look};
use model::tree::tree;
use model::{BookKind, Rule};
use vectors::lists::{sorted_for, Names};

/// How many positions are read back.
const READS: usize = 20;

/// What everything is measured with, and what the second program answers.
pub struct Data {
    /// The names.
    pub names: Names,
    /// Their list.
    pub list: Vec<u8>,
    /// Two parts of the names, with some in common, which are merged to all.
    pub parts: [Names; 2],
    /// The lists of these.
    pub lists: [Vec<u8>; 2],
    /// Their book.
    pub book: Vec<u8>,
    /// The same names for a folded book.
    pub folded: Folded,
    /// The questions.
    pub questions: Names,
    /// The answers to all of them, for each kind.
    answers: [Vec<Numbers>; Kind::ALL.len()],
    /// How far each of them looks, whatever its kind.
    looks: Vec<Look>,
    /// The positions that are read back.
    positions: Vec<usize>,
    /// The questions of a batch, one behind the other.
    buffer: Vec<u8>,
    /// For each row of a batch: which question it is, and where it begins.
    rows: Vec<(usize, usize)>,
}

/// Names for a folded book.
pub struct Folded {
    /// How many there are.
    pub names: usize,
    /// Their list.
    pub list: Vec<u8>,
    /// Their book.
    pub book: Vec<u8>,
}

impl Folded {
    /// These names, without those that fold to others.
    fn of(names: &Names) -> Folded {
        let names = sorted_for(BookKind::Folded, names.clone());
        Folded {
            names: names.len(),
            list: model::write_list(&names),
            book: model::book_of(BookKind::Folded, BLOCK, &names),
        }
    }
}

impl Data {
    /// The data, the same on every run. It stays until the program ends.
    pub fn make() -> &'static Data {
        let names = stations();
        let questions = questions(&names);
        let root = tree(Rule::Plain, &names).expect("there are names");
        let answers = Kind::ALL.map(|kind| {
            let answer = |question: &Vec<u8>| match kind {
                Kind::Nearest => accepted(nearest_from(Rule::Plain, &root, &names, question)),
                _ => accepted(ask_names(&names, kind, question)),
            };
            questions.iter().map(answer).collect()
        });
        let look = |question: &Vec<u8>| look_from(Rule::Plain, BLOCK, &root, question);
        let looks = questions.iter().map(look).collect();
        let mut buffer = Vec::new();
        let mut rows = Vec::new();
        for row in 0..ROWS {
            let number = row * questions.len() / ROWS;
            rows.push((number, buffer.len()));
            buffer.extend_from_slice(&questions[number]);
        }
        let parts = two_lists(&names);
        let [first, second] = &parts;
        Box::leak(Box::new(Data {
            list: model::write_list(&names),
            lists: [model::write_list(first), model::write_list(second)],
            book: model::book_of(BookKind::Plain, BLOCK, &names),
            folded: Folded::of(&names),
            positions: positions(&names, READS),
            parts,
            names,
            questions,
            answers,
            looks,
            buffer,
            rows,
        }))
    }

    /// The rows of a batch with these kinds, as `row` makes them of kind number,
    /// start and length.
    fn batch<R>(&self, kinds: &[Kind], row: impl Fn(usize, usize, usize) -> R) -> Vec<R> {
        let rows = kinds.iter().zip(&self.rows);
        rows.map(|(kind, &(number, start))| row(kind.number(), start, self.questions[number].len()))
            .collect()
    }
}

/// The numbers of an accepted call.
fn accepted((first, second): (usize, usize)) -> Numbers {
    answered([0, first, second])
}

/// The numbers of the library's answer.
pub fn of_library(answer: proved::Answer) -> Numbers {
    answered([answer.code, answer.first, answer.second])
}

/// The numbers of the reference's answer.
pub fn of_reference(answer: reference::Answer) -> Numbers {
    answered([answer.code, answer.first, answer.second])
}

/// The numbers of the second program's answer.
pub fn of_model(answer: model::Answer) -> Numbers {
    answered([answer.code, answer.first, answer.second])
}

/// The numbers that a question to the library gives.
fn counted_by_library(given: proved::Counted) -> Numbers {
    let [code, first, second, ..] = of_library(given.answer());
    [code, first, second, given.visits, given.entries]
}

/// The numbers that a question to the reference gives.
fn counted_by_reference(given: reference::Counted) -> Numbers {
    let [code, first, second, ..] = of_reference(given.answer());
    [code, first, second, given.visits, given.entries]
}

/// The numbers that a question to the second program gives.
fn counted_by_model(given: model::Counted) -> Numbers {
    let [code, first, second, ..] = of_model(given.answer());
    [code, first, second, given.visits, given.entries]
}

/// A question to the second program, with the names at hand.
fn ask_names(names: &Names, kind: Kind, question: &[u8]) -> (usize, usize) {
    match kind {
        Kind::Exact => model::questions::exact(Rule::Plain, names, question),
        Kind::Place => model::questions::place(Rule::Plain, names, question),
        Kind::Range => model::questions::range(Rule::Plain, names, question),
        Kind::Nearest => {
            model::questions::nearest(Rule::Plain, names, question).unwrap_or_default()
        }
        Kind::Width => model::questions::width(Rule::Plain, names, question),
    }
}

/// A question to the sorted array.
fn ask_sorted(sorted: Sorted, kind: Kind, question: &[u8]) -> Numbers {
    accepted(match kind {
        Kind::Exact => sorted.exact(question),
        Kind::Place => sorted.place(question),
        Kind::Range => sorted.range(question),
        Kind::Nearest => sorted.nearest(question).unwrap_or_default(),
        Kind::Width => sorted.width(question),
    })
}

/// A call that is measured with several inputs, one after the other.
pub trait Call: Send {
    /// How many inputs there are.
    fn turns(&self) -> usize;
    /// Makes the call with the input of this turn.
    fn make(&mut self, turn: usize) -> Numbers;
    /// Whether these are the right numbers.
    fn is_right(&self, turn: usize, numbers: Numbers) -> bool;
}

/// Whose call it is, and which.
pub struct Item {
    /// The number of the subject.
    pub subject: usize,
    /// What the call does.
    pub step: Step,
    /// The call.
    pub call: Box<dyn Call>,
}

/// A call with one input.
struct Once<F> {
    make: F,
    expected: Numbers,
}

impl<F: FnMut() -> Numbers + Send> Call for Once<F> {
    fn turns(&self) -> usize {
        1
    }

    fn make(&mut self, _: usize) -> Numbers {
        (self.make)()
    }

    fn is_right(&self, _: usize, numbers: Numbers) -> bool {
        numbers == self.expected
    }
}

/// A question, of which every so many are asked.
struct Asking<F> {
    data: &'static Data,
    kind: Kind,
    every: usize,
    /// Whether the first number is a position or a place, as it should be.
    whole: bool,
    /// Whether it tells how far it looked.
    counts: bool,
    ask: F,
}

impl<F: FnMut(&[u8]) -> Numbers + Send> Call for Asking<F> {
    fn turns(&self) -> usize {
        self.data.questions.len() / self.every
    }

    fn make(&mut self, turn: usize) -> Numbers {
        (self.ask)(&self.data.questions[turn * self.every])
    }

    fn is_right(&self, turn: usize, numbers: Numbers) -> bool {
        let question = turn * self.every;
        let mut expected = self.data.answers[self.kind.index()][question];
        if self.counts {
            let look = self.data.looks[question];
            (expected[3], expected[4]) = (look.visits, look.entries);
        }
        numbers == expected || (!self.whole && numbers[2] == expected[2])
    }
}

/// Reading back.
struct Reading<F> {
    data: &'static Data,
    every: usize,
    /// Whether the number of a name is its position.
    in_order: bool,
    room: Vec<u8>,
    read: F,
}

impl<F: FnMut(usize, &mut [u8]) -> Numbers + Send> Call for Reading<F> {
    fn turns(&self) -> usize {
        self.data.positions.len() / self.every
    }

    fn make(&mut self, turn: usize) -> Numbers {
        (self.read)(self.data.positions[turn * self.every], &mut self.room)
    }

    fn is_right(&self, turn: usize, numbers: Numbers) -> bool {
        let name = &self.room[..numbers[1]];
        let found = self
            .data
            .names
            .binary_search_by(|other| other[..].cmp(name));
        let position = self.data.positions[turn * self.every];
        numbers[0] == 0 && found.is_ok_and(|found| !self.in_order || found == position)
    }
}

/// A batch, with answer rows of a kind of their own.
struct Batching<A, F> {
    data: &'static Data,
    kinds: Vec<Kind>,
    answers: Vec<A>,
    ask: F,
    tell: fn(A) -> Numbers,
}

impl<A: Copy + Send, F: FnMut(&mut [A]) -> Numbers + Send> Call for Batching<A, F> {
    fn turns(&self) -> usize {
        1
    }

    fn make(&mut self, _: usize) -> Numbers {
        (self.ask)(&mut self.answers)
    }

    fn is_right(&self, _: usize, numbers: Numbers) -> bool {
        let rows = self.kinds.iter().zip(&self.data.rows);
        let expected = rows.map(|(&kind, &(number, _))| self.data.answers[kind.index()][number]);
        numbers == accepted((ROWS, 0)) && self.answers.iter().copied().map(self.tell).eq(expected)
    }
}

/// The subjects, and every call of theirs.
pub fn items(data: &'static Data, peers: &[(String, Loaded)]) -> (Vec<Subject>, Vec<Item>) {
    let mut subjects = vec![
        subject("Mistrogu", data.book.len()),
        subject("reference", data.book.len()),
        subject("second program", data.book.len()),
    ];
    let mut items = checked_items(data, library());
    items.extend(checked_items(data, reference()));
    items.extend(model_items(data));
    items.extend(merging::items(data));
    items.extend(salvaging::items(data));

    let starts = Box::leak(Box::new([0; MOST_NAMES]));
    let sorted = Sorted::build(&data.list, starts).expect("the list is sound");
    subjects.push(subject("sorted array", sorted.size()));
    items.extend(sorted_items(data, sorted));

    for (name, loaded) in peers {
        let size = loaded.build(&data.list).size();
        items.extend(loaded_items(data, subjects.len(), *loaded, size));
        subjects.push(subject(name, size));
    }
    (subjects, items)
}

/// A subject of this name.
fn subject(name: &str, size: usize) -> Subject {
    Subject {
        name: name.to_string(),
        size,
    }
}

/// An item of this subject.
pub fn item(subject: usize, step: Step, call: impl Call + 'static) -> Item {
    Item {
        subject,
        step,
        call: Box::new(call),
    }
}

/// A call that builds a book.
type Build<A> = fn(&[u8], usize, &mut [u8]) -> A;
/// A call that asks a question.
type Ask<A> = fn(&[u8], &[u8]) -> A;
/// A call that asks a batch: the book, the buffer, its rows and its answers.
type Batch<A, R> = fn(&[u8], &[u8], &[R], &mut [A]) -> A;

/// The calls of a library that checks a book before it answers, with its own
/// answers, what its questions give, and its rows.
#[derive(Clone, Copy)]
struct Checked<A, C, R> {
    subject: usize,
    build: Build<A>,
    build_folded: Build<A>,
    check: fn(&[u8]) -> A,
    read: fn(&[u8], usize, &mut [u8]) -> A,
    asks: [Ask<C>; Kind::ALL.len()],
    batch: Batch<A, R>,
    /// A row of its own.
    row: fn(usize, usize, usize) -> R,
    /// The numbers of its answer.
    tell: fn(A) -> Numbers,
    /// The numbers of what its question gives.
    tell_counted: fn(C) -> Numbers,
}

/// The proved library.
fn library() -> Checked<proved::Answer, proved::Counted, proved::Row> {
    Checked {
        subject: LIBRARY,
        build: proved::book_build,
        build_folded: proved::book_build_folded,
        check: proved::book_check,
        read: proved::book_read,
        asks: [
            proved::book_exact,
            proved::book_place,
            proved::book_range,
            proved::book_nearest,
            proved::book_width,
        ],
        batch: proved::book_batch,
        row: |kind, start, length| proved::Row {
            kind,
            start,
            length,
        },
        tell: of_library,
        tell_counted: counted_by_library,
    }
}

/// Careful code without index tests.
fn reference() -> Checked<reference::Answer, reference::Counted, reference::Row> {
    Checked {
        subject: REFERENCE,
        build: reference::book_build,
        build_folded: reference::book_build_folded,
        check: reference::book_check,
        read: reference::book_read,
        asks: [
            reference::book_exact,
            reference::book_place,
            reference::book_range,
            reference::book_nearest,
            reference::book_width,
        ],
        batch: reference::book_batch,
        row: |kind, start, length| reference::Row {
            kind,
            start,
            length,
        },
        tell: of_reference,
        tell_counted: counted_by_reference,
    }
}

/// The calls of a library that checks.
fn checked_items<A, C, R>(data: &'static Data, calls: Checked<A, C, R>) -> Vec<Item>
where
    A: Copy + Default + Send + 'static,
    C: Copy + 'static,
    R: Copy + Send + 'static,
{
    let (own, tell, tell_counted) = (calls.subject, calls.tell, calls.tell_counted);
    let mut room = vec![0; LONGEST_BOOK];
    let length = tell((calls.build)(&data.list, BLOCK, &mut room))[1];
    assert_eq!(&room[..length], data.book, "the book");

    let nothing = Once {
        make: || Numbers::default(),
        expected: Numbers::default(),
    };
    let build = Once {
        make: move || tell((calls.build)(&data.list, BLOCK, &mut room)),
        expected: accepted((data.book.len(), 0)),
    };
    let check = Once {
        make: move || tell((calls.check)(&data.book)),
        expected: accepted((data.names.len(), BLOCK)),
    };
    let read = Reading {
        data,
        every: 1,
        in_order: true,
        room: vec![0; LONGEST_NAME],
        read: move |position, room: &mut [u8]| tell((calls.read)(&data.book, position, room)),
    };
    let mut items = vec![
        item(own, Step::Nothing, nothing),
        item(own, Step::Build, build),
        item(own, Step::Check, check),
        item(own, Step::Read, read),
    ];
    for (kind, ask_book) in Kind::ALL.into_iter().zip(calls.asks) {
        let ask = Asking {
            data,
            kind,
            every: 1,
            whole: true,
            counts: true,
            ask: move |question: &[u8]| tell_counted(ask_book(&data.book, question)),
        };
        items.push(item(own, Step::Ask(kind), ask));
    }
    items.extend(checked_batches(data, calls));
    items.extend(folded_items(
        own,
        data,
        calls.build_folded,
        calls.check,
        tell,
    ));
    items
}

/// Building and checking a folded book, by calls whose answer has these numbers.
fn folded_items<A: 'static>(
    subject: usize,
    data: &'static Data,
    build: Build<A>,
    check: fn(&[u8]) -> A,
    tell: fn(A) -> Numbers,
) -> Vec<Item> {
    let folded = &data.folded;
    let mut room = vec![0; LONGEST_BOOK];
    let build = Once {
        make: move || tell(build(&folded.list, BLOCK, &mut room)),
        expected: accepted((folded.book.len(), 0)),
    };
    let check = Once {
        make: move || tell(check(&folded.book)),
        expected: accepted((folded.names, BLOCK)),
    };
    vec![
        item(subject, Step::BuildFolded, build),
        item(subject, Step::CheckFolded, check),
    ]
}

/// The batches of a library that checks: a mixed one, and one of each kind.
fn checked_batches<A, C, R>(data: &'static Data, calls: Checked<A, C, R>) -> Vec<Item>
where
    A: Copy + Default + Send + 'static,
    C: Copy + 'static,
    R: Copy + Send + 'static,
{
    let tell = calls.tell;
    let batch = |step: Step, kinds: Vec<Kind>| {
        let rows = data.batch(&kinds, calls.row);
        let ask =
            move |answers: &mut [A]| tell((calls.batch)(&data.book, &data.buffer, &rows, answers));
        let batch = Batching {
            data,
            kinds,
            answers: vec![A::default(); ROWS],
            ask,
            tell,
        };
        item(calls.subject, step, batch)
    };
    let mut items = vec![batch(Step::Batch, mixed_kinds())];
    items.extend(Kind::ALL.map(|kind| batch(Step::BatchOf(kind), vec![kind; ROWS])));
    items
}

/// The kinds of a mixed batch.
fn mixed_kinds() -> Vec<Kind> {
    Kind::ALL.into_iter().cycle().take(ROWS).collect()
}

/// A call of the second program that asks a question.
type AskModel = fn(&[u8], &[u8]) -> model::Counted;

/// The second program's calls: one question of each shape, and two names read.
fn model_items(data: &'static Data) -> Vec<Item> {
    let mut room = vec![0; LONGEST_BOOK];
    let build = Once {
        make: move || of_model(model::book_build(&data.list, BLOCK, &mut room)),
        expected: accepted((data.book.len(), 0)),
    };
    let check = Once {
        make: || of_model(model::book_check(&data.book)),
        expected: accepted((data.names.len(), BLOCK)),
    };
    let read = Reading {
        data,
        every: READS / 2,
        in_order: true,
        room: vec![0; LONGEST_NAME],
        read: |position, room: &mut [u8]| of_model(model::book_read(&data.book, position, room)),
    };
    let held_read = Reading {
        data,
        every: 1,
        in_order: true,
        room: vec![0; LONGEST_NAME],
        read: |position: usize, room: &mut [u8]| {
            let name = &data.names[position];
            room[..name.len()].copy_from_slice(name);
            accepted((name.len(), 0))
        },
    };
    let mut items = vec![
        item(MODEL, Step::Build, build),
        item(MODEL, Step::Check, check),
        item(MODEL, Step::Read, read),
        item(MODEL, Step::HeldRead, held_read),
    ];
    let calls: [AskModel; Kind::ALL.len()] = [
        model::book_exact,
        model::book_place,
        model::book_range,
        model::book_nearest,
        model::book_width,
    ];
    for (kind, ask_book) in Kind::ALL.into_iter().zip(calls) {
        let ask = Asking {
            data,
            kind,
            every: EACH,
            whole: true,
            counts: true,
            ask: move |question: &[u8]| counted_by_model(ask_book(&data.book, question)),
        };
        let held = Asking {
            data,
            kind,
            every: EACH,
            whole: true,
            counts: false,
            ask: move |question: &[u8]| accepted(ask_names(&data.names, kind, question)),
        };
        items.push(item(MODEL, Step::Ask(kind), ask));
        items.push(item(MODEL, Step::HeldAsk(kind), held));
    }
    let build = model::book_build_folded;
    items.extend(folded_items(
        MODEL,
        data,
        build,
        model::book_check,
        of_model,
    ));
    let kinds = mixed_kinds();
    let rows = data.batch(&kinds, |kind, start, length| model::Row {
        kind,
        start,
        length,
    });
    let batch = Batching {
        data,
        kinds,
        answers: vec![model::Answer::default(); ROWS],
        ask: move |answers: &mut [model::Answer]| {
            of_model(model::book_batch(&data.book, &data.buffer, &rows, answers))
        },
        tell: of_model,
    };
    items.push(item(MODEL, Step::Batch, batch));
    items
}

/// The sorted array's calls.
fn sorted_items(data: &'static Data, sorted: Sorted<'static>) -> Vec<Item> {
    let mut starts = vec![0; MOST_NAMES];
    let build = Once {
        make: move || {
            let built = Sorted::build(&data.list, &mut starts);
            answered(built.map_or([1, 0, 0], |built| [0, built.size(), 0]))
        },
        expected: accepted((sorted.size(), 0)),
    };
    let read = Reading {
        data,
        every: 1,
        in_order: true,
        room: vec![0; LONGEST_NAME],
        read: move |position, room: &mut [u8]| {
            let length = sorted.read(position, room);
            answered(length.map_or([1, 0, 0], |length| [0, length, 0]))
        },
    };
    let mut items = vec![
        item(SORTED, Step::Build, build),
        item(SORTED, Step::Read, read),
    ];
    for kind in Kind::ALL {
        let ask = Asking {
            data,
            kind,
            every: 1,
            whole: true,
            counts: false,
            ask: move |question: &[u8]| ask_sorted(sorted, kind, question),
        };
        items.push(item(SORTED, Step::Ask(kind), ask));
    }
    let kinds = mixed_kinds();
    let rows = data.batch(&kinds, |kind, start, length| (kind, start, length));
    let batch = Batching {
        data,
        kinds,
        answers: vec![Numbers::default(); ROWS],
        ask: move |answers: &mut [Numbers]| {
            for (&(kind, start, length), answer) in rows.iter().zip(answers) {
                let question = &data.buffer[start..start + length];
                *answer = ask_sorted(sorted, Kind::ALL[kind - 1], question);
            }
            accepted((rows.len(), 0))
        },
        tell: |numbers| numbers,
    };
    items.push(item(SORTED, Step::Batch, batch));
    items
}

/// The calls of a library that was loaded, as far as it has them.
fn loaded_items(data: &'static Data, subject: usize, loaded: Loaded, size: usize) -> Vec<Item> {
    let build = Once {
        make: move || accepted((loaded.build(&data.list).size(), 0)),
        expected: accepted((size, 0)),
    };
    let mut items = vec![item(subject, Step::Build, build)];
    // Who knows a place knows positions.
    let whole = loaded.asks(Kind::Place);
    if loaded.reads() {
        let mut names = loaded.build(&data.list);
        let read = Reading {
            data,
            every: 1,
            in_order: whole,
            room: vec![0; LONGEST_NAME],
            read: move |number, room: &mut [u8]| names.read(number, room),
        };
        items.push(item(subject, Step::Read, read));
    }
    for kind in Kind::ALL {
        if loaded.asks(kind) {
            let mut names = loaded.build(&data.list);
            let ask = Asking {
                data,
                kind,
                every: 1,
                whole,
                counts: false,
                ask: move |question: &[u8]| names.ask(kind, question),
            };
            items.push(item(subject, Step::Ask(kind), ask));
        }
    }
    items
}
