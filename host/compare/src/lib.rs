//! The proved library beside other ways to keep names.
//!
//! Where to look:
//!
//! | Module | What it has |
//! |---|---|
//! | [`stations`](mod@stations) | names like those of stations |
//! | [`mix`] | the questions and positions |
//! | [`sorted`] | a plain sorted array, searched by halving |
//! | [`steps`] | what is measured, and the figures |
//! | [`turns`] | who takes turns with whom while times are taken |
//! | [`tables`] | the figures as a page of Markdown |
//! | [`plot`] | the figures as a drawing |
//!
//! The program over them links the proved library and measures: see
//! benchmark.sh. Nothing here does, so that it can be tested without.

#![forbid(unsafe_code)]
#![warn(missing_docs)]

pub mod mix;
pub mod plot;
pub mod sorted;
pub mod stations;
pub mod steps;
pub mod tables;
pub mod turns;

pub use stations::stations;
