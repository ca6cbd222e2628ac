//! What ends a command before its work is done, and how it is said.
use pmn::Refusal;
use std::fmt;
use std::io;

/// How a command ended, as the shell is told.
#[derive(Clone, Copy, Debug, PartialEq, Eq)]
pub enum Status {
    /// the work is done
    Done,
    /// refused, unlike, or not to be read or written
    Refused,
    /// the arguments are not what the command takes
    WrongUse,
}

impl Status {
    /// The number for the shell.
    pub fn number(self) -> u8 {
        match self {
            Status::Done => 0,
            Status::Refused => 1,
            Status::WrongUse => 2,
        }
    }
}

/// What ends a command before its work is done.
#[derive(Debug)]
pub enum Failure {
    /// arguments, or words of a script, that the command does not take
    WrongUse(String),
    /// the library refused a file, or what was asked of it
    Refused { name: String, refusal: Refusal },
    /// a file that can't be read or written, or that does not serve, in words
    File { name: String, words: String },
    /// whoever read standard output has closed it
    ClosedPipe,
    /// several failures, each of which is said already
    Said,
}

impl Failure {
    /// A refusal of what this file holds, or of what was asked of it.
    pub fn refused(name: &str, refusal: Refusal) -> Failure {
        Failure::Refused { name: name.to_string(), refusal }
    }

    /// A file that does not serve, and why.
    pub fn file(name: &str, words: impl Into<String>) -> Failure {
        Failure::File { name: name.to_string(), words: words.into() }
    }

    /// What the system said when a file was read or written.
    pub fn system(name: &str, error: &io::Error) -> Failure {
        Failure::file(name, system_words(error))
    }

    /// What the shell is told.
    pub fn status(&self) -> Status {
        match self {
            Failure::WrongUse(_) => Status::WrongUse,
            _ => Status::Refused,
        }
    }

    /// Whether there is nothing to say any more.
    pub fn is_silent(&self) -> bool {
        matches!(self, Failure::ClosedPipe | Failure::Said)
    }
}

impl fmt::Display for Failure {
    fn fmt(&self, f: &mut fmt::Formatter<'_>) -> fmt::Result {
        match self {
            Failure::WrongUse(words) => write!(f, "{words}"),
            Failure::Refused { name, refusal } => write!(f, "{name}: refused {refusal}"),
            Failure::File { name, words } => write!(f, "{name}: {words}"),
            Failure::ClosedPipe | Failure::Said => Ok(()),
        }
    }
}

/// The system's words without its number.
fn system_words(error: &io::Error) -> String {
    let words = error.to_string();
    match words.split_once(" (os error") {
        Some((before, _)) => before.to_string(),
        None => words,
    }
}
