//! The most stack that any input can cost a call of the proved library.
//!
//! Nothing is run and nothing is measured. The frames are read from the code
//! in the archive, and the deepest way through them is added up. Where to look:
//!
//! | Module | What it has |
//! |---|---|
//! | [`dump`] | objdump, asked for what is in the archive |
//! | [`object`] | its answer: symbols, instructions, relocations |
//! | [`step`] | what one instruction does to the stack |
//! | [`frame`] | how deep the frame of a function gets, and how deep it is at each call |
//! | [`function`] | all functions, and which of them each call enters |
//! | [`way`] | the deepest way from a function, and the one cycle |
//! | [`header`] | what `mistrogu.h` says, held to that |
//! | [`page`] | the figures as tables |
//!
//! # Why it is a bound
//!
//! - Of a function, every instruction has one depth: the code is followed along
//!   all its jumps, and an instruction to which two ways come with different
//!   depths, or none at all, is refused.
//! - What moves the stack pointer by anything but a number that stands in the
//!   instruction is refused, and so is each jump or call that goes where a
//!   register says. Refused means that there is no figure at all.
//! - Every call is taken to be possible, and every jump to another function,
//!   too. The deepest way over all of them counts.
//! - A cycle of calls is refused unless it is the one whose depth is proved:
//!   [`way::MOST_LEVELS`] says where.
//! - `memcpy` and `memset` are the guest's own. Of them only the return address
//!   is counted; any other function that is not in the archive is refused.
//!
//! It takes on trust that objdump reads the instructions right, and that the
//! code keeps to the calling convention of System V: a function leaves the stack
//! pointer as it found it, and writes nothing further below it than the 128
//! bytes that the convention grants ([`frame::RED_ZONE`]).

#![forbid(unsafe_code)]
#![warn(missing_docs)]

pub mod dump;
pub mod frame;
pub mod function;
pub mod header;
pub mod object;
pub mod page;
pub mod step;
pub mod way;
