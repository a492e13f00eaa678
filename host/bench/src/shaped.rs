//! Lists by their shape: each is built, its book checked, and a place asked.
//!
//! `growth` goes over lists of which one parameter doubles, `worst` over shapes
//! that may cost most: some by a plan, some by chance. For folded books these are
//! spelt so that neighbours differ in case where they share letters: what they share
//! is then no stored count.

use crate::building::build;
use crate::checking::measured_check;
use crate::{asking, read_number, shown};
use format::{LONGEST_BOOK, MOST_NAMES};
use model::names::leading_equal;
use model::questions::Look;
use model::{write_list, Answer, BookKind, Counted};
use vectors::growth;
use vectors::lists::{compared, compared_name, Names};
use vectors::random::Random;
use vectors::worst::{self, fitting_chains, Comb, Worst};

/// Builds, checks and asks: a line for each call, with this label. Nothing
/// where the list is too large for a book.
///
/// The second program would take too long under a profiler, so what is expected
/// is said by the plain list.
fn lines(label: &str, list: &Worst, room: &mut [u8]) -> Result<Vec<String>, String> {
    let records = write_list(&list.names);
    let built = build(list.kind, &records, list.block, room);
    if built.code == 9 {
        return Ok(vec![format!("build {label}: too large")]);
    }
    let book = &room[..built.first];
    let names = compared(list.kind, &list.names);
    let question = compared_name(list.kind, &list.question);
    let place = names.partition_point(|name| *name < question);
    let expected = |first, second| Answer {
        code: 0,
        first,
        second,
    };
    shown(measured_check(book), expected(names.len(), list.block))?;
    shown(
        asking::measured_place(book, &list.question),
        Counted::of(expected(place, 0), look(&names, list.block, &question)),
    )?;
    let bytes = built.first;
    let line = |call: &str| format!("{call} {label}: {bytes}");
    Ok(["build", "check", "place"].map(line).to_vec())
}

/// How far a question looks: it goes down in a run of names, of which those are left
/// that have its next symbol behind what all of them share.
fn look(names: &Names, block: usize, question: &[u8]) -> Look {
    let (mut first, mut run) = (0, &names[..]);
    let mut visits = 1;
    while let [low, .., high] = run {
        let depth = leading_equal(low, high);
        if depth > question.len() {
            break;
        }
        // No byte is the end, and it is below every byte.
        let wanted = question.get(depth);
        let from = run.partition_point(|name| name.get(depth) < wanted);
        let fitting = run[from..].partition_point(|name| name.get(depth) == wanted);
        if fitting == 0 {
            break;
        }
        (first, run) = (first + from, &run[from..from + fitting]);
        visits += 1;
    }
    Look {
        visits,
        entries: first % block + 1,
    }
}

/// Lists of which one parameter doubles.
pub fn growth() -> Result<String, String> {
    let mut room = vec![0; LONGEST_BOOK];
    let mut all = Vec::new();
    for grown in growth::all() {
        let label = format!("{}, {}", grown.parameter, grown.value);
        all.extend(lines(&label, &grown.list, &mut room)?);
    }
    Ok(all.join("\n"))
}

/// Shapes of books of this kind that may cost most, the random ones by this seed.
pub fn worst(kind: BookKind, words: &[String]) -> Result<String, String> {
    let seed = words.first().map_or(Ok(1), |word| read_number(word))?;
    let mut random = Random::from_seed(seed as u64);
    let shapes = match kind {
        BookKind::Plain | BookKind::Columns => plain_shapes(&mut random),
        BookKind::Folded => folded_shapes(&mut random),
    };
    let mut room = vec![0; LONGEST_BOOK];
    let mut all = Vec::new();
    for shape in shapes {
        all.extend(lines(&shape.what, &shape, &mut room)?);
    }
    Ok(all.join("\n"))
}

/// Shapes of plain books, by a plan and by chance.
fn plain_shapes(random: &mut Random) -> Vec<Worst> {
    let mut shapes = planned();
    shapes.extend((0..400).filter_map(|_| any_comb(random)));
    shapes.extend((0..60).map(|_| any_chains(random)));
    shapes.extend((0..10).map(|_| worst::any(random)));
    shapes
}

/// Shapes of folded books, by a plan and by chance: the dearest that is known;
/// chains, and names of few letters, all of which neighbours spell in the other case
/// from some place on; and random names of which they do.
fn folded_shapes(random: &mut Random) -> Vec<Worst> {
    let mut shapes = vec![worst::dearest_folded_check()];
    for block in [1, 2, 4, 8, 16, 32, 64] {
        for length in [2, 4, 8, 16, 32, 64, 200] {
            for place in [0, 1] {
                shapes.push(worst::turned(
                    &fitting_chains(MOST_NAMES, length, block),
                    place,
                ));
            }
        }
        for (letters, length) in [(2, 11), (2, 20), (3, 8), (5, 6), (13, 4), (26, 3), (26, 12)] {
            for place in [0, 1, length - 2] {
                shapes.push(worst::turned(&worst::spelt(letters, length, block), place));
            }
        }
    }
    shapes.extend((0..60).map(|_| {
        let shape = worst::any(random);
        worst::turned(&shape, random.below(9))
    }));
    shapes
}

/// Chains and combs, as many names of each as fit a book, and those that were
/// dearest before.
fn planned() -> Vec<Worst> {
    let mut shapes = vec![worst::dearest_check(), worst::dearest_question()];
    for length in [2, 4, 8, 9, 10, 11, 12, 14, 16, 18, 20, 32, 64, 200] {
        for block in [1, 2, 4, 8, 16, 64] {
            shapes.push(fitting_chains(MOST_NAMES, length, block));
        }
    }
    for step in [1, 2, 4, 8, 16, 32] {
        let depths = 1..=199 / step;
        shapes.extend(depths.filter_map(|levels| planned_comb(levels, step)));
    }
    shapes
}

/// A comb of so many levels, so many bytes apart, in blocks of 1, with as many
/// leaves as fit.
fn planned_comb(levels: usize, step: usize) -> Option<Worst> {
    let most = Comb {
        levels,
        step,
        leaves: 254,
        tail: 0,
        last: 254,
        block: 1,
        astray: false,
    };
    most.fitting().map(|comb| comb.worst())
}

/// Some chains.
fn any_chains(random: &mut Random) -> Worst {
    let count = random.between(1000, MOST_NAMES);
    fitting_chains(count, random.between(1, 60), any_block(random))
}

/// Some block size, often the least: such books take most to check.
fn any_block(random: &mut Random) -> usize {
    let most = if random.once_in(4) { 1 } else { 64 };
    random.between(1, most)
}

/// Some comb, if there is one like that: mostly with as many names as can be.
fn any_comb(random: &mut Random) -> Option<Worst> {
    let shallowest = if random.once_in(2) { 1 } else { 150 };
    let levels = random.between(shallowest, 199);
    let last = random.between(2, 254);
    let most = (MOST_NAMES - last) / levels;
    let least = if random.once_in(4) { 1 } else { most };
    let comb = Comb {
        levels,
        step: random.between(1, 199 / levels),
        leaves: random.between(least.min(most), most).clamp(1, 254),
        tail: random.below(120) / random.between(1, 20),
        last,
        block: any_block(random),
        astray: random.once_in(2),
    };
    comb.fitting().map(|comb| comb.worst())
}
