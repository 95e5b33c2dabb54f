//! How a command ends.

use std::io;
use std::ops::AddAssign;

/// What is wrong with files, arguments or programs. It says nothing about a description.
#[derive(Debug)]
pub struct Trouble(pub String);

impl Trouble {
    pub fn new(words: impl Into<String>) -> Trouble {
        Trouble(words.into())
    }

    /// Trouble with something that has a name.
    pub fn with(name: &str, error: &io::Error) -> Trouble {
        Trouble(format!("{name}: {}", plain(error)))
    }
}

/// An error's words, without its number.
pub fn plain(error: &io::Error) -> String {
    let words = error.to_string();
    let end = words.find(" (os error").unwrap_or(words.len());
    words[..end].to_string()
}

/// The exit code; of several the gravest counts.
#[derive(Clone, Copy, Debug, PartialEq, Eq, PartialOrd, Ord)]
pub enum Outcome {
    Good = 0,
    Refused = 1,
    Trouble = 2,
}

/// What goes to standard output and to standard error, and the exit code.
#[derive(Debug)]
pub struct Report {
    pub written: String,
    pub told: String,
    pub outcome: Outcome,
}

impl Report {
    pub fn good(written: String) -> Report {
        Report {
            written,
            told: String::new(),
            outcome: Outcome::Good,
        }
    }

    /// A verdict that goes to standard output.
    pub fn refused(written: String) -> Report {
        Report {
            outcome: Outcome::Refused,
            ..Report::good(written)
        }
    }

    /// A verdict that goes to standard error, where what was asked for would stand in a file.
    pub fn refused_beside(told: String) -> Report {
        Report {
            told,
            ..Report::refused(String::new())
        }
    }
}

impl From<Trouble> for Report {
    fn from(Trouble(words): Trouble) -> Report {
        Report {
            written: String::new(),
            told: format!("desfanuk: {words}\n"),
            outcome: Outcome::Trouble,
        }
    }
}

/// One after the other.
impl AddAssign for Report {
    fn add_assign(&mut self, other: Report) {
        self.written += &other.written;
        self.told += &other.told;
        self.outcome = self.outcome.max(other.outcome);
    }
}
