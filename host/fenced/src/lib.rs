//! Memory and stacks with fences.
//!
//! A fence is memory that nobody can read or write: whoever touches it is
//! stopped at once by the system, with a signal that ends the process. So a
//! test that lends a function nothing but fenced slices, on a fenced stack,
//! knows when it ends that no byte outside of them was touched on those sides,
//! and that no more stack was taken than there was.
//!
//! Where to look:
//!
//! | Module | What it has |
//! |---|---|
//! | [`slices`] | slices that end, or begin, at a fence |
//! | [`stacks`] | calls on a stack of so many bytes, with a fence below |
//! | [`apart`] | a test in a process of its own, which a fence may end |
//!
//! It is for systems that have `mmap`, and asks nothing else of them.

#![warn(missing_docs)]
#![deny(unsafe_op_in_unsafe_fn)]

pub mod apart;
mod field;
pub mod slices;
pub mod stacks;

pub use slices::{Fence, Fenced};
pub use stacks::on_stack;
