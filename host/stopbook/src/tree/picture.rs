//! Where everything stands in a picture of the tree.
//!
//! The root is at the left. Each leaf has a row of its own; a fork stands in
//! the middle of its children. Each level has a column for the letters of its
//! edges and a column for its boxes, each as wide as the widest in it. Behind a
//! leaf's box stands its name, in a row where nothing else stands further
//! right. So no two texts overlap, whatever the names are.

use super::branches::{more_nodes, Branch, Tree};
use crate::text::{columns, grouped, shown};

/// Width of a letter on edges and of names.
pub const LETTER: f64 = 8.6;
/// Width of a letter in boxes.
pub const SMALL: f64 = 6.8;
/// From one row to the next.
const ROW: f64 = 54.0;
/// Height of a box.
pub const BOX: f64 = 38.0;
/// Between a text and what stands beside it.
pub const GAP: f64 = 10.0;
/// From a box to where its edges part.
const STEM: f64 = 18.0;
/// Around the whole picture.
pub const MARGIN: f64 = 20.0;
/// Height of the line over the tree.
const HEAD: f64 = 34.0;
/// Height of the line under it.
const FOOT: f64 = 30.0;
/// A longer text is cut in its middle.
const LONGEST: usize = 40;

/// A node's box and texts.
#[derive(Debug)]
pub struct Spot {
    /// Left side of the box.
    pub x: f64,
    /// Middle of the box.
    pub y: f64,
    /// Width of the box.
    pub width: f64,
    /// The letters on the edge that leads here.
    pub letters: String,
    /// Whether the end symbol follows the letters.
    pub ends: bool,
    /// Where the edge that leads here has its bend; the letters begin behind it.
    pub bend: f64,
    /// The two lines in the box.
    pub lines: [String; 2],
    /// The name behind a leaf's box.
    pub name: Option<String>,
    /// The middle of the row that tells what is left out, and its text.
    pub more: Option<(f64, String)>,
}

impl Spot {
    /// Right side of the box.
    pub fn right(&self) -> f64 {
        self.x + self.width
    }

    /// Where the edges to the children part.
    pub fn fork(&self) -> f64 {
        self.right() + STEM
    }

    /// Where its texts end at the right.
    fn end(&self) -> f64 {
        let name = self
            .name
            .as_deref()
            .map(|name| self.right() + GAP + wide(name));
        let more = self
            .more
            .as_ref()
            .map(|(_, text)| self.fork() + 3.0 * GAP + small(text));
        self.right()
            .max(name.unwrap_or(0.0))
            .max(more.unwrap_or(0.0))
    }
}

/// A picture: its size, and a spot for each node that is drawn.
#[derive(Debug)]
pub struct Picture {
    /// Width of the whole.
    pub width: f64,
    /// Height of the whole.
    pub height: f64,
    /// The nodes, by their numbers.
    pub spots: Vec<Spot>,
}

/// Width of a text on an edge, or of a name.
pub fn wide(text: &str) -> f64 {
    LETTER * columns(text) as f64
}

/// Width of a text in a box.
pub fn small(text: &str) -> f64 {
    SMALL * columns(text) as f64
}

/// Width of an edge's letters with the word for the end symbol.
fn label_width(letters: &str, ends: bool) -> f64 {
    match ends {
        true => wide(letters) + wide(" end"),
        false => wide(letters),
    }
}

/// Lays the tree out. The two texts stand over and under it.
pub fn lay_out(tree: &Tree, head: &str, foot: &str) -> Picture {
    let mut spots: Vec<Spot> = tree.branches.iter().enumerate().map(spot).collect();
    set_columns(tree, &mut spots);
    let mut rows = 0;
    if !tree.branches.is_empty() {
        set_rows(tree, 0, &mut rows, &mut spots);
    }
    let texts = (MARGIN + wide(head)).max(MARGIN + small(foot));
    let right = spots.iter().map(Spot::end).fold(texts, f64::max);
    Picture {
        width: (right + MARGIN).ceil(),
        height: HEAD + FOOT + 2.0 * MARGIN + ROW * rows as f64,
        spots,
    }
}

/// A node's texts, not yet at their place.
fn spot((number, branch): (usize, &Branch)) -> Spot {
    let (depth, width) = (branch.node.depth, branch.node.width);
    let lines = [
        format!("node {}, depth {depth}", grouped(number)),
        format!("{}, width {width}", branch.positions()),
    ];
    Spot {
        x: 0.0,
        y: 0.0,
        width: 0.0,
        letters: shortened(&visible(&branch.letters)),
        ends: branch.is_leaf(),
        bend: 0.0,
        lines,
        name: branch.is_leaf().then(|| shortened(&shown(&branch.name))),
        more: None,
    }
}

/// Letters of an edge, with a blank at either end made visible.
fn visible(letters: &[u8]) -> String {
    let text = shown(letters);
    let inner = text.trim_matches(' ');
    if inner.is_empty() {
        return "␣".repeat(text.len());
    }
    let before = text.len() - text.trim_start_matches(' ').len();
    let behind = text.len() - text.trim_end_matches(' ').len();
    format!("{}{inner}{}", "␣".repeat(before), "␣".repeat(behind))
}

/// The text, its middle cut out where it is too long.
fn shortened(text: &str) -> String {
    let letters: Vec<char> = text.chars().collect();
    if letters.len() <= LONGEST {
        return text.to_string();
    }
    let half = LONGEST / 2;
    let front: String = letters[..half].iter().collect();
    let back: String = letters[letters.len() - half + 1..].iter().collect();
    format!("{front}…{back}")
}

/// Sets the columns: for each level first the letters, then the boxes.
fn set_columns(tree: &Tree, spots: &mut [Spot]) {
    let levels = tree.branches.iter().map(|branch| branch.level + 1).max();
    let mut bend = MARGIN;
    for level in 0..levels.unwrap_or(0) {
        let here = |number: &usize| tree.branches[*number].level == level;
        let numbers: Vec<usize> = (0..spots.len()).filter(here).collect();
        let mut label: f64 = 0.0;
        let mut width: f64 = 0.0;
        for &number in &numbers {
            let spot = &spots[number];
            label = label.max(label_width(&spot.letters, spot.ends));
            let texts = spot.lines.iter().map(|line| small(line));
            width = texts.map(|text| text + 2.0 * GAP).fold(width, f64::max);
        }
        let x = bend + GAP + label + GAP;
        for number in numbers {
            spots[number].bend = bend;
            spots[number].x = x;
            spots[number].width = width;
        }
        bend = x + width + STEM;
    }
}

/// Sets the rows of a node and of all below it, and gives the node's middle.
fn set_rows(tree: &Tree, number: usize, rows: &mut usize, spots: &mut [Spot]) -> f64 {
    let branch = &tree.branches[number];
    let mut middles = Vec::new();
    for &child in &branch.children {
        middles.push(set_rows(tree, child, rows, spots));
    }
    if branch.left_out > 0 {
        let y = next_row(rows);
        spots[number].more = Some((y, more_nodes(branch.left_out)));
        middles.push(y);
    }
    let y = match (middles.first(), middles.last()) {
        (Some(first), Some(last)) => (first + last) / 2.0,
        _ => next_row(rows),
    };
    spots[number].y = y;
    y
}

/// The middle of the next free row.
fn next_row(rows: &mut usize) -> f64 {
    let y = MARGIN + HEAD + ROW * (*rows as f64 + 0.5);
    *rows += 1;
    y
}

#[cfg(test)]
mod tests {
    use super::super::branches::tests::{book_of, example};
    use super::*;

    /// A rectangle: left, top, right, bottom.
    type Area = (f64, f64, f64, f64);

    /// What every text and box of a picture covers.
    fn areas(picture: &Picture) -> Vec<Area> {
        let mut areas = Vec::new();
        for spot in &picture.spots {
            let (top, bottom) = (spot.y - BOX / 2.0, spot.y + BOX / 2.0);
            areas.push((spot.x, top, spot.right(), bottom));
            let start = spot.bend + GAP;
            let end = start + label_width(&spot.letters, spot.ends);
            let letters = (start, spot.y - 20.0, end, spot.y);
            if letters.0 < letters.2 {
                areas.push(letters);
            }
            if let Some(name) = &spot.name {
                let x = spot.right() + GAP;
                areas.push((x, spot.y - 10.0, x + wide(name), spot.y + 10.0));
            }
            if let Some((y, text)) = &spot.more {
                let x = spot.fork() + 3.0 * GAP;
                areas.push((x, y - 10.0, x + small(text), y + 10.0));
            }
        }
        areas
    }

    /// Whether two rectangles have a point in common.
    fn meet(one: &Area, other: &Area) -> bool {
        one.0 < other.2 && other.0 < one.2 && one.1 < other.3 && other.1 < one.3
    }

    /// Asserts that nothing overlaps and all is inside.
    fn assert_apart(picture: &Picture) {
        let areas = areas(picture);
        for (index, one) in areas.iter().enumerate() {
            assert!(one.0 >= 0.0 && one.1 >= HEAD, "{one:?}");
            assert!(
                one.2 <= picture.width && one.3 <= picture.height - FOOT,
                "{one:?}"
            );
            for other in &areas[index + 1..] {
                assert!(!meet(one, other), "{one:?} {other:?}");
            }
        }
    }

    #[test]
    fn nothing_overlaps_in_the_example() {
        let picture = lay_out(&example(), "head", "foot");
        assert_eq!(picture.spots.len(), 4);
        assert_apart(&picture);
    }

    #[test]
    fn nothing_overlaps_in_deep_wide_and_cut_trees() {
        let long = "x".repeat(199);
        let texts = [
            "a", "aa", "aaa", "aaab", "ab", "b", "b b", "b c", "駅", "駅前", &long,
        ];
        let mut names = texts.to_vec();
        names.sort();
        let mut book = book_of(&names);
        for limit in 1..30 {
            let tree = Tree::of(&mut book, limit).unwrap();
            assert_apart(&lay_out(&tree, "head", "foot"));
        }
    }

    #[test]
    fn a_fork_stands_in_the_middle_of_its_children() {
        let picture = lay_out(&example(), "", "");
        let y = |number: usize| picture.spots[number].y;
        assert_eq!(y(0), y(2));
        assert_eq!(y(2) - y(1), y(3) - y(2));
    }

    #[test]
    fn blanks_at_an_end_are_visible_and_long_texts_are_cut() {
        assert_eq!(visible(b" Road"), "␣Road");
        assert_eq!(visible(b"Old Mill "), "Old Mill␣");
        assert_eq!(visible(b"  "), "␣␣");
        assert_eq!(visible(b""), "");
        let cut = shortened(&"é".repeat(200));
        assert_eq!(cut.chars().count(), LONGEST);
        assert!(cut.contains('…'));
        assert_eq!(shortened("Mar"), "Mar");
    }

    #[test]
    fn no_names_are_an_empty_picture() {
        let tree = Tree::of(&mut book_of(&[]), 9).unwrap();
        let picture = lay_out(&tree, "head", "foot");
        assert!(picture.spots.is_empty());
        assert!(picture.width > 0.0 && picture.height > 0.0);
    }
}
