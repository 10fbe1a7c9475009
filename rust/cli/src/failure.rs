//! How a run ends.

use std::fmt;
use std::io;

/// What was said of the texts.
#[derive(Clone, Copy, Debug, PartialEq, Eq)]
pub enum Verdict {
    /// All are accepted.
    Accepted,
    /// One is refused.
    Refused,
}

/// Why a run stopped.
#[derive(Debug)]
pub enum Failure {
    /// The words at the prompt are wrong.
    Usage(String),
    /// A file, named here, cannot be read or written.
    File(String, io::Error),
    /// The output cannot be written.
    Output(io::Error),
}

impl Failure {
    pub fn usage(what: impl Into<String>) -> Self {
        Failure::Usage(what.into())
    }

    /// Whether whoever read the output has gone.
    pub fn is_broken_pipe(&self) -> bool {
        matches!(self, Failure::Output(error) if error.kind() == io::ErrorKind::BrokenPipe)
    }
}

impl fmt::Display for Failure {
    fn fmt(&self, f: &mut fmt::Formatter<'_>) -> fmt::Result {
        match self {
            Failure::Usage(what) => f.write_str(what.trim_end()),
            Failure::File(name, error) => write!(f, "{name}: {error}"),
            Failure::Output(error) => write!(f, "the output could not be written: {error}"),
        }
    }
}

impl From<io::Error> for Failure {
    fn from(error: io::Error) -> Self {
        Failure::Output(error)
    }
}
