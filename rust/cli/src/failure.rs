//! Why a command gave no result.

use speltfeather::Refusal;
use std::io;

/// The exit status for a command line that cannot be read.
pub const USAGE: u8 = 64;
/// The exit status for a file that cannot be read, or written to.
pub const FILE: u8 = 66;

/// Each holds what is said of it.
#[derive(Debug)]
pub enum Failure {
    /// The library's answer was not 0; its number is the exit status.
    Answer(Refusal, String),
    /// The command line is not one that the command takes.
    Usage(String),
    /// A file or a stream is not what it should be.
    File(String),
    /// Who reads the output has stopped: nothing is left to say.
    Closed,
}

impl Failure {
    /// What the command exits with. 0 is for the answer 0 alone.
    pub fn status(&self) -> u8 {
        match self {
            Failure::Answer(refusal, _) => refusal.number(),
            Failure::Usage(_) => USAGE,
            Failure::File(_) | Failure::Closed => FILE,
        }
    }

    /// What is said of it, with the answer's number in front if there is one.
    pub fn message(&self) -> Option<String> {
        match self {
            Failure::Answer(refusal, text) => Some(format!("answer {}: {text}", refusal.number())),
            Failure::Usage(text) | Failure::File(text) => Some(text.clone()),
            Failure::Closed => None,
        }
    }
}

/// An error of writing the output.
impl From<io::Error> for Failure {
    fn from(error: io::Error) -> Self {
        match error.kind() {
            io::ErrorKind::BrokenPipe => Failure::Closed,
            _ => Failure::File(format!("standard output cannot be written: {error}")),
        }
    }
}
