//! Books that are none, by their node tables.
//!
//! Entries, block table and trailer are sound here; the nodes are such that a
//! check that believes them goes wrong. It goes down further than any book is
//! deep, goes round in one place, or leaves the table. Symbols, first names,
//! numbers of nodes and widths are as each node's place says, but where the kind
//! says otherwise, so that nothing else ends a walk that goes down. Nodes are made
//! of the names as the kind of book compares them, so one way serves all.

use crate::lists::{self, Names};
use crate::pieces::{Node, Pieces, DEPTH, NAMES, NODES};
use crate::random::Random;
use format::{LARGEST_BLOCK, LONGEST_BOOK, LONGEST_NAME, MOST_NAMES};
use model::BookKind;

/// So many names make a nest that is deeper than any book, and still small.
pub const DEEPER_THAN_ANY: usize = 240;

/// The largest number of two bytes.
const LARGEST: usize = 65_535;

/// Makes so many names, or as many as there can be.
type MakeNames = fn(usize) -> Names;
/// Makes the nodes over some names.
type MakeNodes = dyn Fn(&Names) -> Vec<Node>;
/// Makes one number of another.
type MakeNumber = fn(usize) -> usize;
/// Tells whether the node at this number of a table lies.
type IsLiar = fn(&[Node], usize) -> bool;

/// A kind of table.
pub struct Kind {
    /// What is wrong with the nodes.
    pub how: String,
    names: MakeNames,
    nodes: Box<MakeNodes>,
}

impl Kind {
    /// A kind over names of two bytes.
    fn over_pairs(how: impl Into<String>, nodes: impl Fn(&Names) -> Vec<Node> + 'static) -> Kind {
        Kind {
            how: how.into(),
            names: lists::pairs,
            nodes: Box::new(nodes),
        }
    }

    /// The book of this kind over these names, at least two, with the mark and the
    /// symbols of a kind of book.
    pub fn over(&self, book: BookKind, block: usize, names: &Names) -> Pieces {
        let nodes = (self.nodes)(&lists::compared(book, names));
        with_nodes(book, block, names, nodes)
    }

    /// The plain book of this kind with so many names, at least 4, or with as many
    /// as there can be.
    pub fn with_names(&self, count: usize) -> Pieces {
        self.over(BookKind::Plain, LARGEST_BLOCK, &(self.names)(count))
    }

    /// The largest plain book of this kind: with as many names as there can be, which
    /// are as long as they can be while this book, and the one with the right
    /// nodes, have at most 65,535 bytes.
    pub fn largest(&self) -> Pieces {
        let names = (self.names)(MOST_NAMES);
        let right = Pieces::of(BookKind::Plain, LARGEST_BLOCK, &names)
            .trailer
            .length;
        let longer = right.max(self.with_names(MOST_NAMES).trailer.length);
        let more = space_behind(&names).min(LONGEST_BOOK - longer);
        let names = lists::with_book_length(BookKind::Plain, &names, LARGEST_BLOCK, right + more);
        self.over(BookKind::Plain, LARGEST_BLOCK, &names)
    }
}

/// The book of these names, with other nodes.
fn with_nodes(kind: BookKind, block: usize, names: &Names, nodes: Vec<Node>) -> Pieces {
    let mut book = Pieces::of(kind, block, names);
    book.nodes = nodes;
    book.settle_trailer();
    book
}

/// How many bytes can be put behind names that do not begin the next one.
fn space_behind(names: &Names) -> usize {
    let ending = (0..names.len()).filter(|&at| !lists::begins_next(BookKind::Plain, names, at));
    ending.map(|at| LONGEST_NAME - names[at].len()).sum()
}

/// Every kind.
pub fn kinds() -> Vec<Kind> {
    [nests(), only_children(), deep_roots(), lying_rows()]
        .into_iter()
        .flatten()
        .collect()
}

/// Forks in forks, each of which has one name fewer, and is one symbol deeper,
/// than the one around it.
pub fn falling_names() -> Kind {
    Kind::over_pairs("falling names", |names| falling(names, |at| at))
}

/// Forks in forks, each with fewer names and a greater depth.
pub fn nests() -> Vec<Kind> {
    let even_step = |names: &Names, at: usize| at * LARGEST / (names.len() - 2).max(1);
    let leap = |names: &Names, at: usize| match at {
        _ if at < LONGEST_NAME.min(names.len() / 2) => at,
        _ => LARGEST + 2 + at - names.len(),
    };
    vec![
        falling_names(),
        Kind::over_pairs("even steps to 65535", move |names| {
            falling(names, |at| even_step(names, at))
        }),
        Kind::over_pairs("leap to 65535", move |names| {
            falling(names, |at| leap(names, at))
        }),
        Kind::over_pairs("depths from 199", |names| falling(names, |at| 199 + at)),
        Kind::over_pairs("two names fewer each", |names| {
            let forks = (0..names.len() / 2).map(|at| (at, names.len() - 2 * at));
            nest(names, 0, 0, forks)
        }),
        Kind {
            how: "below the deepest fork".into(),
            names: deepest,
            nodes: Box::new(below_the_deepest),
        },
    ]
}

/// Forks with but one child, which has all of their names.
fn only_children() -> Vec<Kind> {
    let depths: [(&str, MakeNumber); 3] = [
        ("rising", |at| at),
        ("equal", |_| 0),
        ("falling", |at| LARGEST - at),
    ];
    let kinds = depths.into_iter();
    kinds
        .map(|(how, depth)| {
            Kind::over_pairs(format!("only children with {how} depths"), move |names| {
                let most = 2 * names.len() - 1;
                nest(names, 0, 0, (0..most).map(|at| (depth(at), names.len())))
            })
        })
        .collect()
}

/// Roots that are deeper than any fork, over a row of leaves and over a nest.
fn deep_roots() -> Vec<Kind> {
    let depths = [200, 201, 256, LARGEST].into_iter();
    depths
        .flat_map(|depth| {
            let leaves = Kind::over_pairs(format!("root of depth {depth} over leaves"), {
                move |names| leaves_under(depth, names)
            });
            let forks = Kind::over_pairs(format!("root of depth {depth} over forks"), {
                move |names| falling(names, |at| (depth + at) % (LARGEST + 1))
            });
            [leaves, forks]
        })
        .collect()
}

/// Right tables, but for the number of nodes that a root, every fork in its row
/// or a leaf tells.
fn lying_rows() -> Vec<Kind> {
    let lies: [(&str, MakeNumber); 4] = [
        ("one less", |nodes| nodes - 1),
        ("one more", |nodes| nodes + 1),
        ("none", |_| 0),
        ("65535", |_| LARGEST),
    ];
    let liars: [(&str, MakeNames, IsLiar); 4] = [
        ("root over leaves", row_of_leaves, |_, at| at == 0),
        ("last leaf", row_of_leaves, |nodes, at| {
            at + 1 == nodes.len()
        }),
        ("root over forks", row_of_forks, |_, at| at == 0),
        ("forks in a row", row_of_forks, |nodes, at| {
            at > 0 && nodes[at][NAMES] > 1
        }),
    ];
    let kinds = liars
        .into_iter()
        .flat_map(|liar| lies.map(|lie| (liar, lie)));
    kinds
        .map(|((who, names, is_liar), (what, lie))| Kind {
            how: format!("{who} with {what} as nodes"),
            names,
            nodes: Box::new(move |names| lying(names, is_liar, lie)),
        })
        .collect()
}

/// The right nodes, with what some of them tell of their number.
fn lying(names: &Names, is_liar: IsLiar, lie: MakeNumber) -> Vec<Node> {
    let right = Pieces::of(BookKind::Plain, LARGEST_BLOCK, names).nodes;
    let mut nodes = right.clone();
    for at in (0..nodes.len()).filter(|&at| is_liar(&right, at)) {
        nodes[at][NODES] = lie(right[at][NODES]);
    }
    nodes
}

/// Names whose root has nothing but leaves: as many as asked for, up to 250.
fn row_of_leaves(count: usize) -> Names {
    lists::pairs(count.min(250))
}

/// Names whose root has nothing but forks of two leaves: as many as asked for
/// and even, up to 512.
fn row_of_forks(count: usize) -> Names {
    let firsts = 0..=(count / 2 - 1).min(255) as u8;
    firsts
        .flat_map(|first| [vec![first, 0], vec![first, 1]])
        .collect()
}

/// Names of which the deepest fork, under as many others as there can be, has
/// the most children, if so many are asked for; up to 456.
fn deepest(count: usize) -> Names {
    let length = (count / 2).min(LONGEST_NAME - 1);
    let chain = lists::chain(b'a', length);
    let mut fan = lists::fan(&chain[length - 1]);
    fan.truncate((count - length).max(3));
    lists::sorted([chain, fan, lists::texts(&["b"])].concat())
}

/// The symbol at this depth of a name; 0 at its end, and past it.
fn symbol_at(name: &[u8], depth: usize) -> usize {
    name.get(depth).map_or(0, |&byte| usize::from(byte) + 1)
}

/// The greatest length of these names.
fn width_of(names: &[Vec<u8>]) -> usize {
    names.iter().map(Vec::len).max().unwrap_or(0)
}

/// A nest over the names from number `first` on, to which `symbol` led: forks,
/// given by their depths and numbers of names, of which each is the only node
/// in the row of the one before.
fn nest(
    names: &Names,
    first: usize,
    mut symbol: usize,
    forks: impl ExactSizeIterator<Item = (usize, usize)>,
) -> Vec<Node> {
    let count = forks.len();
    let mut nodes = Vec::new();
    for (at, (depth, of_names)) in forks.enumerate() {
        let width = width_of(&names[first..][..of_names]);
        nodes.push([symbol, depth, first, of_names, count - at, width]);
        symbol = symbol_at(&names[first], depth);
    }
    nodes
}

/// A nest with as many forks as there can be: with all names, one name fewer,
/// and so on down to two, and with these depths.
fn falling(names: &Names, depth: impl Fn(usize) -> usize) -> Vec<Node> {
    let forks = (0..names.len() - 1).map(|at| (depth(at), names.len() - at));
    nest(names, 0, 0, forks)
}

/// A root of this depth over the leaves of all names.
fn leaves_under(depth: usize, names: &Names) -> Vec<Node> {
    let leaf = |(at, name): (usize, &Vec<u8>)| {
        let length = name.len();
        [symbol_at(name, depth), length + 1, at, 1, 1, length]
    };
    let (count, width) = (names.len(), width_of(names));
    let mut nodes = vec![[0, depth, 0, count, count + 1, width]];
    nodes.extend(names.iter().enumerate().map(leaf));
    nodes
}

/// The right nodes, with a nest in place of the deepest fork's row.
fn below_the_deepest(names: &Names) -> Vec<Node> {
    let mut nodes = Pieces::of(BookKind::Plain, LARGEST_BLOCK, names).nodes;
    let is_deepest = |&at: &usize| (nodes[at][NAMES] > 1).then_some(nodes[at][DEPTH]);
    let deepest = (0..nodes.len()).max_by_key(is_deepest).unwrap_or(0);
    let [_, depth, _, of_names, ..] = nodes[deepest];
    let forks = (1..of_names - 1).map(|at| (depth + at, of_names - at));
    put_row(&mut nodes, deepest, names, forks);
    nodes
}

/// Puts a nest in place of a fork's row. The forks above tell of as many nodes
/// as there are then.
fn put_row(
    nodes: &mut Vec<Node>,
    fork: usize,
    names: &Names,
    forks: impl ExactSizeIterator<Item = (usize, usize)>,
) {
    let [_, depth, first, _, before, _] = nodes[fork];
    let row = nest(names, first, symbol_at(&names[first], depth), forks);
    for (at, node) in nodes.iter_mut().enumerate().take(fork + 1) {
        if at + node[NODES] > fork {
            node[NODES] = node[NODES] + 1 + row.len() - before;
        }
    }
    nodes.splice(fork + 1..fork + before, row);
}

/// Any book of some kind over these names, at least two, or one with a nest of
/// any steps in place of any fork's row.
pub fn any(random: &mut Random, kind: BookKind, block: usize, names: &Names) -> Pieces {
    if random.once_in(2) {
        let kinds = kinds();
        return random.one_of(&kinds).over(kind, block, names);
    }
    let mut book = Pieces::of(kind, block, names);
    let nodes = &book.nodes;
    let forks: Vec<usize> = (0..nodes.len())
        .filter(|&at| nodes[at][NAMES] > 1)
        .collect();
    let fork = *random.one_of(&forks);
    let nest = any_forks(random, nodes[fork]);
    let compared = lists::compared(kind, names);
    put_row(&mut book.nodes, fork, &compared, nest.into_iter());
    book.settle_trailer();
    book
}

/// Forks for a nest under this one: often of one name fewer each, and one
/// symbol deeper.
fn any_forks(random: &mut Random, [_, depth, _, names, ..]: Node) -> Vec<(usize, usize)> {
    let most = *random.one_of(&[1, 1, 1, 2, 9]);
    let deepest = *random.one_of(&[1, 1, 1, 3, 30, 300]);
    let (mut depth, mut names) = (depth, names);
    let mut forks = Vec::new();
    loop {
        depth += random.between(1, deepest);
        names = names.saturating_sub(random.between(1, most));
        if names < 2 || depth > LARGEST {
            return forks;
        }
        forks.push((depth, names));
    }
}
