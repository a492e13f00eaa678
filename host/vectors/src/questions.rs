//! Questions by how they stand to the names of a list.

use crate::lists::{self, Names};
use crate::random::Random;
use format::LONGEST_QUESTION;

/// Bytes that go on with a letter of several bytes: the lowest, the second one of
/// é and the highest.
const GOING_ON: [u8; 3] = [128, 0xA9, 191];

/// The beginnings of a name, from the empty one to the name itself.
pub fn beginnings(name: &[u8]) -> Names {
    (0..=name.len())
        .map(|length| name[..length].to_vec())
        .collect()
}

/// The name with a byte behind it: the lowest, the highest and a letter.
pub fn extensions(name: &[u8]) -> Names {
    let bytes = [0, 255, b'e'].iter();
    bytes.map(|&byte| [name, &[byte]].concat()).collect()
}

/// What misses the name by one byte: the last one more and one less, one in the
/// middle changed, and one in the middle left out.
pub fn misses(name: &[u8]) -> Names {
    let (last, middle) = (name.len() - 1, name.len() / 2);
    let changed = [(last, 1), (last, 255), (middle, 16)].into_iter();
    let mut misses: Names = changed
        .map(|(at, step)| {
            let mut miss = name.to_vec();
            miss[at] = miss[at].wrapping_add(step);
            miss
        })
        .collect();
    misses.push([&name[..middle], &name[middle + 1..]].concat());
    misses
}

/// The name, its beginnings, its extensions and what misses it by one byte.
pub fn around(name: &[u8]) -> Names {
    [beginnings(name), extensions(name), misses(name)].concat()
}

/// Everything around these names, each question once; and the lowest and the
/// highest byte, which stand before and behind most lists.
pub fn around_all<'names>(names: impl IntoIterator<Item = &'names Vec<u8>>) -> Names {
    let mut questions = vec![vec![], vec![0], vec![255], vec![255; 3]];
    questions.extend(names.into_iter().flat_map(|name| around(name)));
    lists::sorted(questions)
}

/// What parts from the name at each of its bytes, with another byte of the same
/// kind there: one that begins a letter, or one that goes on with it.
pub fn partings(name: &[u8]) -> Names {
    parted(name, |byte| byte ^ 2)
}

/// What parts from the name at each of its bytes, with a byte of the other kind
/// there, and such a byte behind the name: a letter breaks off, or a byte goes on
/// with a letter that was whole.
pub fn breaks(name: &[u8]) -> Names {
    let mut breaks = parted(name, |byte| match byte {
        128..=191 => b'e',
        _ => GOING_ON[0],
    });
    breaks.push([name, &GOING_ON[..1]].concat());
    breaks
}

/// For each byte of the name what stands before it, and another byte in its place.
fn parted(name: &[u8], other: impl Fn(u8) -> u8) -> Names {
    let places = 0..name.len();
    places
        .map(|at| [&name[..at], &[other(name[at])]].concat())
        .collect()
}

/// Everything about the letters of these names, each question once: what ends
/// inside a letter, and what parts from a name inside one, before it or behind it.
pub fn about_letters(names: &Names) -> Names {
    let names = names.iter();
    let questions = names.flat_map(|name| [beginnings(name), partings(name), breaks(name)]);
    lists::sorted(questions.flatten().collect())
}

/// All questions of at most so many bytes over these, the shorter ones first.
pub fn all_short(bytes: &[u8], longest: usize) -> Names {
    let mut questions = vec![vec![]];
    let mut longer = questions.clone();
    for _ in 0..longest {
        longer = longer
            .iter()
            .flat_map(|question| bytes.iter().map(|&byte| [&question[..], &[byte]].concat()))
            .collect();
        questions.extend_from_slice(&longer);
    }
    questions
}

/// How a question stands to the names of a list.
#[derive(Clone, Copy)]
pub enum Shape {
    /// It is a name.
    Name,
    /// It is a beginning of a name, and shorter.
    Beginning,
    /// It begins with a name, and is longer.
    Extension,
    /// It misses a name by one byte.
    Miss,
    /// It is any bytes, or the head of one name and the tail of another.
    Stranger,
}

/// Every shape.
pub const SHAPES: [Shape; 5] = [
    Shape::Name,
    Shape::Beginning,
    Shape::Extension,
    Shape::Miss,
    Shape::Stranger,
];

/// A question of this shape, of at most 200 bytes. Any names will do; where
/// there is none, or an empty one is met, the question is any bytes.
pub fn of_shape(random: &mut Random, names: &Names, shape: Shape) -> Vec<u8> {
    let name = match names.len() {
        0 => &[][..],
        count => &names[random.below(count)],
    };
    let mut question = match shape {
        _ if name.is_empty() => any_bytes(random),
        Shape::Name => name.to_vec(),
        Shape::Beginning => name[..random.below(name.len())].to_vec(),
        Shape::Extension => [name, &tail(random, names)].concat(),
        Shape::Miss => miss(random, name),
        Shape::Stranger if random.once_in(2) => any_bytes(random),
        Shape::Stranger => {
            let head = &name[..random.below(name.len() + 1)];
            [head, &tail(random, names)].concat()
        }
    };
    question.truncate(LONGEST_QUESTION);
    question
}

/// Up to twelve bytes, whatever they are.
fn any_bytes(random: &mut Random) -> Vec<u8> {
    random.string(&lists::all_bytes(), 0, 12)
}

/// The end of a name, or a byte that is the lowest, the highest or any.
fn tail(random: &mut Random, names: &Names) -> Vec<u8> {
    let name = random.one_of(names);
    match random.below(4) {
        0 => vec![*random.one_of(&[0, 255])],
        1 => vec![random.byte()],
        _ => name[random.below(name.len().max(1))..].to_vec(),
    }
}

/// The name with one byte one more, one less or any, left out or doubled: often
/// the last one.
fn miss(random: &mut Random, name: &[u8]) -> Vec<u8> {
    let mut miss = name.to_vec();
    let last = name.len() - 1;
    let at = if random.once_in(2) {
        last
    } else {
        random.below(name.len())
    };
    match random.below(5) {
        0 => miss[at] = miss[at].wrapping_add(1),
        1 => miss[at] = miss[at].wrapping_sub(1),
        2 => miss[at] = random.byte(),
        3 => drop(miss.remove(at)),
        _ => miss.insert(at, miss[at]),
    }
    miss
}

/// A question of any shape; now and then it is empty, or has 200 bytes, 201 or
/// more, or somewhere a byte that goes on with a letter.
pub fn any_question(random: &mut Random, names: &Names) -> Vec<u8> {
    let shape = *random.one_of(&SHAPES);
    let mut question = of_shape(random, names, shape);
    let byte = *random.one_of(&[0, b'a', 255]);
    match random.below(40) {
        0 => question.clear(),
        1 | 2 => question.resize(LONGEST_QUESTION, byte),
        3 | 4 => question.resize(LONGEST_QUESTION + 1, byte),
        5 => question.resize(LONGEST_QUESTION + random.below(400), byte),
        6..=10 => {
            let at = random.below(question.len() + 1);
            question.insert(at, *random.one_of(&GOING_ON));
        }
        _ => {}
    }
    question
}
