//! Document 02, change request 8, tried out: many small lists, every short question,
//! and what is told of how far it looked compared with a direct look at the names and
//! at the bytes.
//!
//! The comparisons here use nothing of the model but its calls, and nothing goes
//! down. A node is told by the symbols that its names share, so the nodes are a set
//! of strings of symbols: one for each name, with its end, and one for each pair of
//! names, of what these two share. Which of them a question visits is said of each
//! node by itself. The entries are counted by reading them from the book's bytes.

mod common;

use common::{all_strings, built_as, names, Random, QUESTIONS};
use model::{BookKind, Counted};
use std::collections::BTreeSet;

/// The symbols of a name or a question in a book of this kind, with the end.
fn symbols(kind: BookKind, bytes: &[u8]) -> Vec<u16> {
    let bytes = match kind {
        BookKind::Plain | BookKind::Columns => bytes.to_vec(),
        BookKind::Folded => bytes.to_ascii_lowercase(),
    };
    let own = bytes.iter().map(|&byte| u16::from(byte) + 1);
    own.chain([0]).collect()
}

/// What two strings share from their front.
fn shared_front(one: &[u16], other: &[u16]) -> Vec<u16> {
    let pairs = one.iter().zip(other);
    let same = pairs.take_while(|(left, right)| left == right);
    same.map(|(&symbol, _)| symbol).collect()
}

/// All nodes, each by what its names share: what two names share is what all names
/// of the node share where the two part.
fn nodes(strings: &[Vec<u16>]) -> BTreeSet<Vec<u16>> {
    let mut nodes: BTreeSet<Vec<u16>> = strings.iter().cloned().collect();
    for (number, one) in strings.iter().enumerate() {
        for other in &strings[number + 1..] {
            nodes.insert(shared_front(one, other));
        }
    }
    nodes
}

/// Whether a question visits a node: of each node above it, it has the symbol that
/// leads there, and so is long enough to have one.
fn is_visited(node: &[u16], nodes: &BTreeSet<Vec<u16>>, question: &[u16]) -> bool {
    let mut above = nodes
        .iter()
        .filter(|other| other.len() < node.len() && node.starts_with(other));
    above.all(|other| question.get(other.len()) == node.get(other.len()))
}

/// Reads the entries of the block that has this position, from its first on, until
/// the name is there; how many these are.
fn entries_to(book: &[u8], position: usize, name: &[u8]) -> usize {
    let number = |at: usize| usize::from(book[at]) + 256 * usize::from(book[at + 1]);
    let trailer = book.len() - 16;
    let (block, table) = (number(trailer + 2), number(trailer + 4));
    let mut at = number(table + 2 * (position / block));
    let mut rebuilt = Vec::new();
    let mut entries = 0;
    while rebuilt != name {
        let (shared, rest) = (usize::from(book[at]), usize::from(book[at + 1]));
        rebuilt.truncate(shared);
        rebuilt.extend_from_slice(&book[at + 2..at + 2 + rest]);
        at += 2 + rest;
        entries += 1;
    }
    entries
}

/// The names of a list, as the questions are held to them.
struct Held {
    kind: BookKind,
    names: Vec<Vec<u8>>,
    block: usize,
    book: Vec<u8>,
    strings: Vec<Vec<u16>>,
    nodes: BTreeSet<Vec<u16>>,
}

impl Held {
    fn of(kind: BookKind, names: &[Vec<u8>], block: usize) -> Held {
        let strings: Vec<Vec<u16>> = names.iter().map(|name| symbols(kind, name)).collect();
        Held {
            kind,
            names: names.to_vec(),
            block,
            book: built_as(kind, names, block),
            nodes: nodes(&strings),
            strings,
        }
    }

    /// The nodes that a question visits.
    fn visited(&self, question: &[u8]) -> Vec<&Vec<u16>> {
        let question = symbols(self.kind, question);
        let nodes = self.nodes.iter();
        nodes
            .filter(|node| is_visited(node, &self.nodes, &question))
            .collect()
    }

    /// The position of the first name of the longest of these nodes.
    fn reached(&self, visited: &[&Vec<u16>]) -> usize {
        let last = visited.iter().max_by_key(|node| node.len());
        let last = last.expect("the root is visited");
        let mut strings = self.strings.iter();
        let first = strings.position(|string| string.starts_with(last));
        first.expect("a node has names")
    }

    /// Visits and entries, by the names and the bytes.
    fn direct_look(&self, question: &[u8]) -> [usize; 2] {
        if self.names.is_empty() {
            return [0, 0];
        }
        let visited = self.visited(question);
        let reached = self.reached(&visited);
        let entries = entries_to(&self.book, reached, &self.names[reached]);
        assert_eq!(entries, reached % self.block + 1);
        [visited.len(), entries]
    }

    /// Asks in all kinds, and holds what is told to the direct look and to the
    /// bounds. Which of the bounds are met.
    fn hold(&self, question: &[u8]) -> [bool; 2] {
        let (names, expected) = (&self.names, self.direct_look(question));
        let five = QUESTIONS.map(|ask| ask(&self.book, question));
        for (kind, found) in (1..).zip(five) {
            let Counted {
                code,
                visits,
                entries,
                ..
            } = found;
            let refused = kind == 4 && names.is_empty();
            assert_eq!(code, if refused { 10 } else { 0 });
            assert_eq!([visits, entries], expected, "{names:?} {question:?} {kind}");
        }
        let [visits, _] = expected;
        let most = [names.len(), question.len() + 2];
        assert!(most.iter().all(|&most| visits <= most), "{names:?}");
        assert_eq!(visits == 0, names.is_empty());
        if !names.is_empty() {
            assert_eq!(expected[1], five[3].first % self.block + 1);
        }
        most.map(|most| visits == most)
    }
}

/// Holds every question to the book of these names. In how many each bound is met.
fn try_list(
    kind: BookKind,
    names: &[Vec<u8>],
    block: usize,
    questions: &[Vec<u8>],
    met: &mut [usize; 2],
) {
    let held = Held::of(kind, names, block);
    for question in questions {
        for (count, is_met) in met.iter_mut().zip(held.hold(question)) {
            *count += usize::from(is_met && !names.is_empty());
        }
    }
}

/// A list of up to so many random names that rises in a book of this kind.
fn random_list(
    kind: BookKind,
    random: &mut Random,
    most: usize,
    bytes: &[u8],
    longest: usize,
) -> Vec<Vec<u8>> {
    let wanted = random.below(most + 1);
    let mut names: Vec<Vec<u8>> = (0..wanted)
        .map(|_| random.string(bytes, 1, longest))
        .collect();
    names.sort_by_key(|name| symbols(kind, name));
    names.dedup_by_key(|name| symbols(kind, name));
    names
}

#[test]
fn the_direct_look_tells_the_nodes_of_document_01() {
    let held = Held::of(BookKind::Plain, &common::mar_names(), 2);
    assert_eq!(held.book, common::BOOK_BY_2);
    let depths: Vec<usize> = held.nodes.iter().map(Vec::len).collect();
    // the root, Mar, Marina, Market Square
    assert_eq!(depths, [3, 4, 7, 14]);
    assert_eq!(held.direct_look(b"Marina"), [2, 2]);
    assert_eq!(held.direct_look(b"Market"), [2, 1]);
    assert_eq!(held.direct_look(b"Maxim"), [2, 2]);
    assert_eq!(held.direct_look(b"Mango"), [1, 1]);
    assert_eq!(held.direct_look(b"Zoo"), [2, 1]);
    assert_eq!(held.direct_look(b""), [1, 1]);
}

#[test]
fn every_set_of_names_of_at_most_two_bytes_over_two_letters() {
    // a, aa, ab, b, ba, bb: 64 sets, each with every question up to 3 bytes.
    let candidates = names(&["a", "aa", "ab", "b", "ba", "bb"]);
    let questions = all_strings(b"abc", 3);
    let mut met = [0; 2];
    for set in 0..64usize {
        let chosen = (0..6).filter(|at| set >> at & 1 == 1);
        let list: Vec<Vec<u8>> = chosen.map(|at: usize| candidates[at].clone()).collect();
        for block in 1..=6 {
            try_list(BookKind::Plain, &list, block, &questions, &mut met);
        }
    }
    assert!(met.iter().all(|&met| met > 100), "{met:?}");
}

#[test]
fn every_set_of_four_names_of_at_most_three_bytes_over_two_letters() {
    let mut candidates = all_strings(b"ab", 3)[1..].to_vec();
    candidates.sort();
    let questions = all_strings(b"ab", 4);
    let mut met = [0; 2];
    for set in 0..1usize << candidates.len() {
        if set.count_ones() == 4 {
            let chosen = (0..candidates.len()).filter(|at| set >> at & 1 == 1);
            let list: Vec<Vec<u8>> = chosen.map(|at| candidates[at].clone()).collect();
            try_list(BookKind::Plain, &list, 1 + set % 4, &questions, &mut met);
        }
    }
    assert!(met.iter().all(|&met| met > 100), "{met:?}");
}

#[test]
fn random_lists_of_both_kinds_and_every_short_question() {
    let letters = b"aAbB[\xFF";
    let questions = all_strings(letters, 2);
    let mut met = [0; 2];
    for seed in 80_000..80_300 {
        let mut random = Random::from_seed(seed);
        let block = 1 + random.below(7);
        for kind in BookKind::ALL {
            let list = random_list(kind, &mut random, 9, letters, 4);
            try_list(kind, &list, block, &questions, &mut met);
        }
    }
    assert!(met.iter().all(|&met| met > 100), "{met:?}");
}

#[test]
fn deep_trees_of_two_bytes_and_questions_near_their_names() {
    let mut met = [0; 2];
    for (seed, kind) in (90_000..90_200).zip(BookKind::ALL.into_iter().cycle()) {
        let mut random = Random::from_seed(seed);
        let list = random_list(kind, &mut random, 24, b"aB", 9);
        let mut questions = vec![vec![], b"c".to_vec()];
        for name in &list {
            let mut changed = name.clone();
            changed[random.below(name.len())] = random.one_of(b"aAbBc");
            questions.push(name[..random.below(name.len())].to_vec());
            questions.push([&name[..], b"a"].concat());
            questions.push(name.clone());
            questions.push(changed);
        }
        let block = 1 + random.below(64);
        try_list(kind, &list, block, &questions, &mut met);
    }
    assert!(met[1] > 0, "{met:?}");
}

#[test]
fn longer_lists_of_longer_names() {
    for (seed, kind) in (95_000..95_008).zip(BookKind::ALL.into_iter().cycle()) {
        let mut random = Random::from_seed(seed);
        let list = random_list(kind, &mut random, 60, b"\0aA\xFF", 60);
        let mut questions = vec![vec![], vec![255; 200]];
        for name in &list {
            questions.push(name.clone());
            questions.push(name[..random.below(name.len())].to_vec());
        }
        let block = 1 + random.below(64);
        try_list(kind, &list, block, &questions, &mut [0; 2]);
    }
}
