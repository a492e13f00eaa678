//! `stopbook clip` and `stopbook route`: what the announcer speaks, by a book and a
//! text of clips.

mod clip;
mod route;
mod table;

pub use clip::COMMAND as CLIP;
pub use route::COMMAND as ROUTE;

/// The option for answers that programs read.
const TSV: &str = "--tsv";
/// What stands in a field where there is nothing.
const NOTHING: &str = "-";
