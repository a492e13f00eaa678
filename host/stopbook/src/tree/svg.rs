//! The tree as an SVG picture.
//!
//! The picture has a ground of its own and two sets of colours, so that it can
//! be read on a light page and on a dark one.

use super::branches::Tree;
use super::picture::{lay_out, Picture, Spot, BOX, GAP, MARGIN};

/// What the signs in the picture mean.
const FOOT: &str = "on an edge: its letters; end: the end symbol; depth: symbols up to here; \
                    width: bytes of its longest name";

/// Colours and letters.
const STYLE: &str = "\
text { font-family: 'DejaVu Sans Mono', Menlo, Consolas, monospace; font-size: 14px; fill: #1f2328; white-space: pre; }
.ground { fill: #ffffff; }
.edge { fill: none; stroke: #6e7781; stroke-width: 1.5; }
.more { stroke-dasharray: 4 3; }
.fork { fill: #ddf4ff; stroke: #0969da; }
.leaf { fill: #dafbe1; stroke: #1a7f37; }
.small, .foot { font-size: 11px; }
.small { text-anchor: middle; }
.quiet, .foot { fill: #59636e; }
.name { font-weight: bold; }
@media (prefers-color-scheme: dark) {
text { fill: #f0f6fc; }
.ground { fill: #0d1117; }
.edge { stroke: #9198a1; }
.fork { fill: #0c2d6b; stroke: #4493f8; }
.leaf { fill: #04260f; stroke: #3fb950; }
.quiet, .foot { fill: #9198a1; }
}
";

/// Draws the tree.
pub fn draw(tree: &Tree) -> String {
    let picture = lay_out(tree, &tree.headline, FOOT);
    let mut svg = head(tree, &picture);
    for number in 0..picture.spots.len() {
        draw_edges(tree, &picture, number, &mut svg);
    }
    for spot in &picture.spots {
        draw_letters(spot, &mut svg);
        draw_box(spot, &mut svg);
    }
    let (x, y) = (MARGIN, picture.height - MARGIN);
    svg.push_str(&text(x, y, "foot", &escaped(FOOT)));
    svg.push_str("</svg>\n");
    svg
}

/// The beginning, with the ground and the line over the tree.
fn head(tree: &Tree, picture: &Picture) -> String {
    let (width, height) = (picture.width, picture.height);
    let title = escaped(&tree.headline);
    let line = text(MARGIN, MARGIN + 12.0, "quiet", &title);
    format!(
        "<svg xmlns=\"http://www.w3.org/2000/svg\" width=\"{width}\" height=\"{height}\" \
         viewBox=\"0 0 {width} {height}\" role=\"img\" xml:space=\"preserve\">\n\
         <title>The tree of a book: {title}</title>\n\
         <style>\n{STYLE}</style>\n\
         <rect class=\"ground\" width=\"{width}\" height=\"{height}\" rx=\"8\"/>\n{line}"
    )
}

/// The edges from a node to its children. Where all names share letters, a
/// line with them leads to the root.
fn draw_edges(tree: &Tree, picture: &Picture, number: usize, svg: &mut String) {
    let spot = &picture.spots[number];
    if number == 0 && (spot.ends || !spot.letters.is_empty()) {
        let (from, y, x) = (spot.bend, spot.y, spot.x);
        svg.push_str(&format!(
            "<path class=\"edge\" d=\"M{from:.1} {y:.1}H{x:.1}\"/>\n"
        ));
    }
    let (right, y, fork) = (spot.right(), spot.y, spot.fork());
    for &child in &tree.branches[number].children {
        let child = &picture.spots[child];
        svg.push_str(&format!(
            "<path class=\"edge\" d=\"M{right:.1} {y:.1}H{fork:.1}V{:.1}H{:.1}\"/>\n",
            child.y, child.x
        ));
    }
    if let Some((row, more)) = &spot.more {
        let end = fork + 2.0 * GAP;
        svg.push_str(&format!(
            "<path class=\"edge more\" d=\"M{right:.1} {y:.1}H{fork:.1}V{row:.1}H{end:.1}\"/>\n"
        ));
        svg.push_str(&text(fork + 3.0 * GAP, row + 4.0, "foot", &escaped(more)));
    }
}

/// The letters over a node's edge.
fn draw_letters(spot: &Spot, svg: &mut String) {
    let end = match (spot.ends, spot.letters.is_empty()) {
        (false, _) => "",
        (true, true) => "<tspan class=\"quiet\">end</tspan>",
        (true, false) => "<tspan class=\"quiet\"> end</tspan>",
    };
    let letters = format!("{}{end}", escaped(&spot.letters));
    if !letters.is_empty() {
        svg.push_str(&text(spot.bend + GAP, spot.y - 6.0, "letters", &letters));
    }
}

/// A node's box with its two lines, and the name behind a leaf.
fn draw_box(spot: &Spot, svg: &mut String) {
    let class = if spot.ends { "leaf" } else { "fork" };
    let (x, top, width) = (spot.x, spot.y - BOX / 2.0, spot.width);
    svg.push_str(&format!(
        "<rect class=\"{class}\" x=\"{x:.1}\" y=\"{top:.1}\" width=\"{width:.1}\" \
         height=\"{BOX:.1}\" rx=\"6\"/>\n"
    ));
    let middle = x + width / 2.0;
    let [upper, lower] = &spot.lines;
    svg.push_str(&text(middle, spot.y - 4.0, "small", &escaped(upper)));
    svg.push_str(&text(middle, spot.y + 12.0, "small", &escaped(lower)));
    if let Some(name) = &spot.name {
        svg.push_str(&text(
            spot.right() + GAP,
            spot.y + 5.0,
            "name",
            &escaped(name),
        ));
    }
}

/// A text at a place; what is inside is escaped already.
fn text(x: f64, y: f64, class: &str, inside: &str) -> String {
    format!("<text class=\"{class}\" x=\"{x:.1}\" y=\"{y:.1}\">{inside}</text>\n")
}

/// A text with the signs of XML escaped.
fn escaped(text: &str) -> String {
    let mut escaped = String::new();
    for letter in text.chars() {
        match letter {
            '&' => escaped.push_str("&amp;"),
            '<' => escaped.push_str("&lt;"),
            '>' => escaped.push_str("&gt;"),
            '"' => escaped.push_str("&quot;"),
            other => escaped.push(other),
        }
    }
    escaped
}

#[cfg(test)]
mod tests {
    use super::super::branches::tests::{book_of, example};
    use super::*;

    /// Asserts that tags are closed in the order in which they were opened.
    fn assert_closed(svg: &str) {
        let mut open = Vec::new();
        for tag in svg.split('<').skip(1) {
            let (tag, _) = tag.split_once('>').expect("a tag ends");
            let word = tag.split([' ', '/']).next().unwrap_or_default();
            if let Some(closed) = tag.strip_prefix('/') {
                assert_eq!(open.pop(), Some(closed));
            } else if !tag.ends_with('/') {
                open.push(word);
            }
        }
        assert!(open.is_empty(), "{open:?}");
    }

    #[test]
    fn the_example_has_a_fork_and_three_leaves() {
        let svg = draw(&example());
        assert_closed(&svg);
        assert_eq!(svg.matches("class=\"fork\"").count(), 1);
        assert_eq!(svg.matches("class=\"leaf\"").count(), 3);
        assert_eq!(svg.matches("class=\"edge\"").count(), 4);
        for text in [
            ">Mar</text>",
            ">ina<tspan class=\"quiet\"> end</tspan></text>",
            ">Market Square</text>",
            ">node 3, depth 14</text>",
            ">names 0 to 2, width 13</text>",
        ] {
            assert!(svg.contains(text), "{text}");
        }
    }

    #[test]
    fn both_sets_of_colours_are_there() {
        let svg = draw(&example());
        assert!(svg.contains("prefers-color-scheme: dark"));
        assert!(svg.contains("class=\"ground\""));
    }

    #[test]
    fn signs_of_xml_in_names_are_escaped() {
        let svg = draw(&Tree::of(&mut book_of(&["\u{1}\u{FFFF}", "<b> & \"c\""]), 9).unwrap());
        assert_closed(&svg);
        assert!(svg.contains("&lt;b&gt; &amp; &quot;c&quot;"));
        assert!(svg.contains("\\01\\EF\\BF\\BF"));
        assert!(!svg.contains('\u{1}'));
    }

    #[test]
    fn a_cut_tree_says_what_is_left_out() {
        let svg = draw(&Tree::of(&mut book_of(&["a", "b", "c"]), 2).unwrap());
        assert_closed(&svg);
        assert!(svg.contains("class=\"edge more\""));
        assert!(svg.contains(">2 more nodes</text>"));
    }
}
