//! The questions, positions and lists of the comparison, the same ones each time.

use vectors::lists::Names;
use vectors::questions::{of_shape, SHAPES};
use vectors::random::Random;

/// How many questions of each shape there are.
pub const EACH: usize = 20;

/// A fifth are names, a fifth beginnings of names, a fifth extensions, a fifth
/// miss a name by one byte, and a fifth are strangers.
pub fn questions(names: &Names) -> Names {
    let mut random = Random::from_seed(1);
    let shapes = SHAPES.iter().flat_map(|&shape| [shape; EACH]);
    shapes
        .map(|shape| of_shape(&mut random, names, shape))
        .collect()
}

/// So many positions, from the first name to the last.
pub fn positions(names: &Names, count: usize) -> Vec<usize> {
    let last = names.len() - 1;
    (0..count).map(|turn| turn * last / (count - 1)).collect()
}

/// Two lists to merge: of each three names the first list has one, the second
/// another, and both have the third.
pub fn two_lists(names: &Names) -> [Names; 2] {
    [1, 0].map(|others| {
        let numbered = names.iter().enumerate();
        let own = numbered.filter(|(number, _)| number % 3 != others);
        own.map(|(_, name)| name.clone()).collect()
    })
}
