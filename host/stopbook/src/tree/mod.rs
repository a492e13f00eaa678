//! `stopbook tree`: the node table of a book, drawn.

mod branches;
mod dot;
mod outline;
mod picture;
mod svg;

use crate::args::{Shape, Words};
use crate::book::Book;
use crate::files;
use crate::outcome::{Failure, Outcome, Status, Streams};
use crate::text::grouped;
use crate::{help, Command};
use branches::Tree;
use std::ffi::OsStr;

/// The command.
pub const COMMAND: Command = Command {
    name: "tree",
    shape: Shape {
        valued: &["--svg", "--dot", "--limit"],
        flags: &[],
    },
    help: help::TREE,
    run,
};

/// So many nodes are drawn where nothing else is said.
const USUAL_LIMIT: usize = 100;

/// Draws the tree of a book.
fn run(words: &Words, streams: &mut Streams) -> Outcome {
    let [path] = words.plain.as_slice() else {
        return Err(Failure::usage("give one book, or -"));
    };
    let limit = match words.number("--limit").map_err(Failure::Usage)? {
        Some(0) => return Err(Failure::usage("--limit takes 1 or more")),
        limit => limit.unwrap_or(USUAL_LIMIT),
    };
    let (output, draw) = read_output(words)?;
    if let Some(output) = output {
        files::spare_input(path, output)?;
    }
    let tree = Tree::of(&mut Book::open(path)?, limit)?;
    let drawing = draw(&tree);
    match output {
        None => streams.out.write_all(drawing.as_bytes())?,
        Some(file) => files::write(file, drawing.as_bytes(), streams)?,
    }
    tell_left_out(&tree, streams);
    Ok(Status::Done)
}

/// A way to draw a tree.
type Draw = fn(&Tree) -> String;

/// Where the drawing goes, if not to standard output as text, and how it is
/// drawn.
fn read_output(words: &Words) -> Result<(Option<&OsStr>, Draw), Failure> {
    match (words.value("--svg"), words.value("--dot")) {
        (None, None) => Ok((None, outline::draw)),
        (Some(file), None) => Ok((Some(file), svg::draw)),
        (None, Some(file)) => Ok((Some(file), dot::draw)),
        (Some(_), Some(_)) => Err(Failure::usage("give --svg or --dot, not both")),
    }
}

/// Says how many nodes are not drawn, and how to have them all.
fn tell_left_out(tree: &Tree, streams: &mut Streams) {
    if tree.left_out() > 0 {
        let (drawn, all) = (grouped(tree.branches.len()), grouped(tree.nodes));
        streams.note(&format!(
            "{drawn} of {all} nodes are drawn; --limit {all} draws them all"
        ));
    }
}
