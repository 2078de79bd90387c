//! How a command ends where it has no answer to print.

/// The message goes to standard error.
#[derive(Debug, PartialEq, Eq)]
pub enum Stop {
    /// Wrong usage.
    Usage(String),
    /// Bytes that are no sheet, where standard output is for the sheet alone.
    NoSheet(String),
    /// Mistakes in a text, each told as FILE:LINE.
    Mistakes(String),
    /// A file or stream that cannot be read or written.
    Stream(String),
    /// The reader of standard output has gone.
    Closed,
    /// Two ways to the same figure differ.
    Difference(String),
}

/// The exit status where an answer is printed.
pub const DONE: u8 = 0;
pub const REFUSED: u8 = 1;
/// And where a text has mistakes, which a batch tells among its answers.
pub const MISTAKEN: u8 = 3;

impl Stop {
    pub fn status(&self) -> u8 {
        match self {
            Stop::NoSheet(_) => REFUSED,
            Stop::Usage(_) => 2,
            Stop::Mistakes(_) => MISTAKEN,
            Stop::Stream(_) | Stop::Closed => 4,
            Stop::Difference(_) => 70,
        }
    }

    /// What is told on standard error, with its line ends.
    pub fn message(&self) -> String {
        match self {
            Stop::Usage(text) | Stop::NoSheet(text) | Stop::Mistakes(text) | Stop::Stream(text) => format!("{text}\n"),
            Stop::Closed => String::new(),
            Stop::Difference(text) => format!("two ways to the same figure differ, and no schedule is printed: {text}\n"),
        }
    }
}

/// What a command prints on standard output, what it adds on standard error, and its exit status.
#[derive(Debug, PartialEq, Eq)]
pub struct Answer {
    pub text: Vec<u8>,
    pub note: String,
    pub status: u8,
}

impl Answer {
    pub fn done(text: impl Into<Vec<u8>>) -> Answer {
        Answer { text: text.into(), note: String::new(), status: DONE }
    }

    pub fn refused(text: impl Into<Vec<u8>>) -> Answer {
        Answer { text: text.into(), note: String::new(), status: REFUSED }
    }
}
