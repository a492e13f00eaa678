//! How a command ends, and where it writes.

use crate::light::Light;
use std::io::{self, Write};

/// How a command ended that could be carried out.
#[derive(Clone, Copy, Debug, PartialEq, Eq)]
pub enum Status {
    /// It is done, and where it was a question, the answer is yes.
    Done,
    /// It was a question, and the answer is no.
    No,
    /// It is done, as far as that can be: some names are lost.
    Lost,
}

/// Why a command could not be carried out.
#[derive(Debug)]
pub enum Failure {
    /// What was given breaks a rule of names, books or questions.
    Refused(String),
    /// The words of the command line are wrong.
    Usage(String),
    /// A file cannot be read or written.
    File(String),
    /// Nobody reads the output any more.
    Closed,
}

/// What a command gives back.
pub type Outcome = Result<Status, Failure>;

impl Failure {
    /// Wrong usage.
    pub fn usage(text: impl Into<String>) -> Failure {
        Failure::Usage(text.into())
    }

    /// A rule is broken.
    pub fn refused(text: impl Into<String>) -> Failure {
        Failure::Refused(text.into())
    }
}

/// Writing to standard output failed.
impl From<io::Error> for Failure {
    fn from(error: io::Error) -> Failure {
        match error.kind() {
            io::ErrorKind::BrokenPipe => Failure::Closed,
            _ => Failure::File(format!("standard output: {error}")),
        }
    }
}

/// Where a command writes: answers to `out`, all else to `err`.
pub struct Streams<'a> {
    /// Answers.
    pub out: &'a mut dyn Write,
    /// Notes and errors.
    pub err: &'a mut dyn Write,
    /// How `out` shows what is lit.
    pub light: Light,
}

impl Streams<'_> {
    /// Writes a note. Where even that fails there is nobody to tell.
    pub fn note(&mut self, text: &str) {
        let _ = writeln!(self.err, "stopbook: {text}");
    }
}

/// Says why a command failed, and gives the exit status.
pub fn report(outcome: Outcome, streams: &mut Streams) -> u8 {
    let (text, code) = match outcome {
        Ok(Status::Done) | Err(Failure::Closed) => return 0,
        Ok(Status::No) => return 1,
        Ok(Status::Lost) => return 3,
        Err(Failure::Refused(text)) => (text, 1),
        Err(Failure::Usage(text) | Failure::File(text)) => (text, 2),
    };
    let _ = streams.out.flush();
    streams.note(&text);
    code
}

#[cfg(test)]
mod tests {
    use super::*;

    /// The exit status and the text on standard error.
    fn reported(outcome: Outcome) -> (u8, String) {
        let (mut out, mut err) = (Vec::new(), Vec::new());
        let mut streams = Streams {
            out: &mut out,
            err: &mut err,
            light: Light::Brackets,
        };
        let code = report(outcome, &mut streams);
        (code, String::from_utf8(err).expect("notes are text"))
    }

    #[test]
    fn each_end_has_its_exit_status() {
        assert_eq!(reported(Ok(Status::Done)), (0, String::new()));
        assert_eq!(reported(Ok(Status::No)), (1, String::new()));
        assert_eq!(reported(Ok(Status::Lost)), (3, String::new()));
        assert_eq!(reported(Err(Failure::Closed)), (0, String::new()));
        let refused = reported(Err(Failure::refused("a")));
        assert_eq!(refused, (1, "stopbook: a\n".to_string()));
        let usage = reported(Err(Failure::usage("b")));
        assert_eq!(usage, (2, "stopbook: b\n".to_string()));
    }

    #[test]
    fn a_closed_pipe_is_no_error() {
        let closed = io::Error::from(io::ErrorKind::BrokenPipe);
        assert!(matches!(Failure::from(closed), Failure::Closed));
        let full = io::Error::from(io::ErrorKind::StorageFull);
        assert!(matches!(Failure::from(full), Failure::File(_)));
    }
}
