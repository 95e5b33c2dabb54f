//! Pieces of the page that every part of it uses.

use std::collections::HashMap;

use desfanuk::{Access, Described, Direction, Number, Variable};

use crate::text;
use crate::tints::tints;

/// What the parts of the page are made from.
pub struct Source<'d> {
    pub description: Described<'d>,
    tints: Vec<usize>,
    pub notes: HashMap<String, String>,
}

impl<'d> Source<'d> {
    pub fn new(description: Described<'d>) -> Source<'d> {
        Source {
            description,
            tints: tints(description),
            notes: text::notes(description.text()),
        }
    }

    pub fn register(&self, index: usize) -> String {
        escaped(self.description.register_name(index).expect("a register"))
    }

    pub fn tint(&self, variable: Variable<'d>) -> usize {
        self.tints[variable.index()]
    }

    pub fn parameter(&self, index: usize) -> String {
        escaped(self.description.parameter_name(index).expect("a parameter"))
    }

    /// A place as a description writes it.
    pub fn place(&self, parameter: usize, offset: u8) -> String {
        format!("{} @ {offset}", self.parameter(parameter))
    }

    pub fn place_of(&self, access: Access) -> String {
        self.place(access.parameter, access.offset)
    }

    /// A number of a register, with as many digits as that has.
    pub fn number(&self, register: usize, number: Number) -> String {
        let width = self
            .description
            .register_width(register)
            .expect("a register");
        format!("0x{number:0digits$X}", digits = width / 4)
    }

    /// What the comments of the text say of a name, as a paragraph.
    pub fn note(&self, name: &str, class: &str) -> String {
        match self.notes.get(name) {
            Some(note) => format!("<p class=\"{class}\">{}</p>\n", escaped(note)),
            None => String::new(),
        }
    }
}

/// The name of a variable as HTML shows it.
pub fn name_of(variable: Variable<'_>) -> String {
    escaped(variable.name())
}

/// Text as HTML shows it.
pub fn escaped(text: &str) -> String {
    let mut escaped = String::with_capacity(text.len());
    for c in text.chars() {
        match c {
            '&' => escaped.push_str("&amp;"),
            '<' => escaped.push_str("&lt;"),
            '>' => escaped.push_str("&gt;"),
            '"' => escaped.push_str("&quot;"),
            '\'' => escaped.push_str("&#39;"),
            _ => escaped.push(c),
        }
    }
    escaped
}

/// A value, with a true minus.
pub fn value(value: i64) -> String {
    value.to_string().replace('-', "\u{2212}")
}

/// A name that may break behind its underscores.
pub fn breaking(name: &str) -> String {
    name.replace('_', "_<wbr>")
}

pub const PARTS: [Direction; 2] = [Direction::Read, Direction::Write];

/// A count with its word, which takes an s where there is not one.
pub fn counted(count: usize, word: &str) -> String {
    match count {
        1 => format!("1 {word}"),
        _ => format!("{count} {word}s"),
    }
}
