//! Colour, on a terminal that wants it.

use std::env;
use std::io::IsTerminal;

#[derive(Clone, Copy)]
pub struct Paint {
    is_on: bool,
}

impl Paint {
    /// For what goes to this stream: only a terminal gets colour, and none where NO_COLOR is set.
    pub fn on(stream: &impl IsTerminal) -> Paint {
        let unwanted = env::var_os("NO_COLOR").is_some_and(|value| !value.is_empty());
        Paint {
            is_on: stream.is_terminal() && !unwanted,
        }
    }

    pub fn bold(self, words: &str) -> String {
        self.with("1", words)
    }

    pub fn red(self, words: &str) -> String {
        self.with("1;31", words)
    }

    pub fn green(self, words: &str) -> String {
        self.with("32", words)
    }

    pub fn dim(self, words: &str) -> String {
        self.with("2", words)
    }

    fn with(self, code: &str, words: &str) -> String {
        if self.is_on {
            format!("\x1b[{code}m{words}\x1b[0m")
        } else {
            words.to_string()
        }
    }
}
