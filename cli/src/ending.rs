//! How a command ends.

use std::fmt;
use std::io::{self, Write};

/// Ends that are answers: exit status 0 and 1.
#[derive(Clone, Copy, Debug, PartialEq, Eq, PartialOrd, Ord)]
pub enum Ending {
    Answered,
    Refused,
}

/// What keeps a command from answering: exit status 2.
#[derive(Debug)]
pub enum Fail {
    /// Of a command (or of none), and why.
    Usage(Option<&'static str>, String),
    System(String),
    /// Standard output could not be written.
    Output(io::Error),
}

pub type Ended = Result<Ending, Fail>;

impl Fail {
    /// A usage error within a command is that command's.
    pub fn of(self, command: &'static str) -> Fail {
        match self {
            Fail::Usage(_, why) => Fail::Usage(Some(command), why),
            other => other,
        }
    }
}

pub fn usage<T>(why: impl Into<String>) -> Result<T, Fail> {
    Err(Fail::Usage(None, why.into()))
}

pub fn system<T>(why: impl Into<String>) -> Result<T, Fail> {
    Err(Fail::System(why.into()))
}

/// Only writing to standard output gives a bare error of input and output; what goes wrong with files is said by name.
impl From<io::Error> for Fail {
    fn from(error: io::Error) -> Fail {
        Fail::Output(error)
    }
}

impl fmt::Display for Fail {
    fn fmt(&self, f: &mut fmt::Formatter) -> fmt::Result {
        match self {
            Fail::Usage(None, why) => write!(f, "{why}; see kerumpase --help"),
            Fail::Usage(Some(command), why) => write!(f, "{why}; see kerumpase {command} --help"),
            Fail::System(why) => write!(f, "{why}"),
            Fail::Output(error) if error.kind() == io::ErrorKind::BrokenPipe => {
                write!(f, "standard output was closed before everything was written")
            }
            Fail::Output(error) => write!(f, "standard output cannot be written: {error}"),
        }
    }
}

/// Says something on standard error; where even that cannot be written nothing more can be done.
pub fn complain(what: &str) {
    let _ = writeln!(io::stderr(), "kerumpase: {what}");
}
