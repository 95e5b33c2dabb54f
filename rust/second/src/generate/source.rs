//! Descriptions as trees of what is written, and their spelling: the generator changes trees, so
//! that a rule can be broken on purpose, and only then writes them down.

use super::Random;
use crate::description::Part;

#[derive(Clone, Debug)]
pub struct Source {
    pub device: String,
    pub parameters: Vec<ParameterSource>,
    pub objects: Vec<ObjectSource>,
}

#[derive(Clone, Debug)]
pub struct ParameterSource {
    pub name: String,
    pub width: u32,
    pub ranges: Option<Vec<(u32, u32)>>,
}

#[derive(Clone, Debug)]
pub enum ObjectSource {
    Register(RegisterSource),
    Variable(VariableSource),
}

#[derive(Clone, Debug)]
pub struct RegisterSource {
    pub name: String,
    pub ports: Vec<PortSource>,
    pub masks: Vec<(Option<Part>, String)>,
    pub width: u32,
}

#[derive(Clone, Debug)]
pub struct PortSource {
    pub modifier: Option<Part>,
    pub parameter: String,
    /// The tokens of the offset.
    pub offset: Option<Vec<String>>,
}

#[derive(Clone, Debug)]
pub struct VariableSource {
    pub name: String,
    pub lists: Vec<ListSource>,
    pub attributes: Vec<AttributeSource>,
    pub kind: KindSource,
}

#[derive(Clone, Debug)]
pub struct ListSource {
    pub modifier: Option<Part>,
    pub registers: Vec<PieceSource>,
}

/// A register in a bit list: its name, and its ranges unless it is whole.
pub type PieceSource = (String, Option<Vec<(u32, u32)>>);

#[derive(Clone, Copy, Debug, PartialEq, Eq)]
pub enum AttributeSource {
    Volatile,
    Trigger(Option<Part>),
}

#[derive(Clone, Copy, Debug, PartialEq, Eq)]
pub enum KindSource {
    Int(u32),
    Signed(u32),
    Bool,
}

/// How much stands between tokens, and how numbers are written.
#[derive(Clone, Copy, Debug, PartialEq, Eq)]
pub enum Style {
    /// Only the blanks that are needed, all numbers decimal.
    Tight,
    /// A blank or a newline here and there.
    Plain,
    /// Blanks and comments of all kinds, numbers in all radixes.
    Wild,
}

/// A number, in some radix.
pub fn number(random: &mut Random, style: Style, value: u32) -> String {
    if style != Style::Wild {
        return value.to_string();
    }
    match random.below(9) {
        0 => format!("0x{value:x}"),
        1 => format!("0x{value:X}"),
        2 => format!("0o{value:o}"),
        3 => format!("00{value}"),
        4 => format!("0x0{value:X}"),
        _ => value.to_string(),
    }
}

impl Source {
    /// The tokens of the description.
    pub fn tokens(&self, random: &mut Random, style: Style) -> Vec<String> {
        let mut writer = Writer {
            tokens: Vec::new(),
            random,
            style,
        };
        writer.words(&["device", &self.device, "("]);
        for (i, parameter) in self.parameters.iter().enumerate() {
            if i > 0 {
                writer.word(",");
            }
            writer.parameter(parameter);
        }
        writer.words(&[")", "{"]);
        for object in &self.objects {
            match object {
                ObjectSource::Register(register) => writer.register(register),
                ObjectSource::Variable(variable) => writer.variable(variable),
            }
        }
        writer.word("}");
        writer.tokens
    }

    pub fn registers(&self) -> impl Iterator<Item = &RegisterSource> {
        self.objects.iter().filter_map(|object| match object {
            ObjectSource::Register(register) => Some(register),
            ObjectSource::Variable(_) => None,
        })
    }

    pub fn variables(&self) -> impl Iterator<Item = &VariableSource> {
        self.objects.iter().filter_map(|object| match object {
            ObjectSource::Register(_) => None,
            ObjectSource::Variable(variable) => Some(variable),
        })
    }

    /// The text of the description.
    pub fn text(&self, random: &mut Random, style: Style) -> Vec<u8> {
        let tokens = self.tokens(random, style);
        spell(&tokens, random, style)
    }
}

struct Writer<'r> {
    tokens: Vec<String>,
    random: &'r mut Random,
    style: Style,
}

impl Writer<'_> {
    fn word(&mut self, word: &str) {
        self.tokens.push(word.to_string());
    }

    fn words(&mut self, words: &[&str]) {
        words.iter().for_each(|word| self.word(word));
    }

    fn number(&mut self, value: u32) {
        let token = number(self.random, self.style, value);
        self.tokens.push(token);
    }

    fn modifier(&mut self, modifier: Option<Part>) {
        match modifier {
            Some(Part::Read) => self.word("read"),
            Some(Part::Write) => self.word("write"),
            None => {}
        }
    }

    fn bit_type(&mut self, width: u32) {
        self.words(&["bit", "["]);
        self.number(width);
        self.word("]");
    }

    /// A range of one number is written either way.
    fn ranges(&mut self, ranges: &[(u32, u32)]) {
        for (i, (first, last)) in ranges.iter().enumerate() {
            if i > 0 {
                self.word(",");
            }
            self.number(*first);
            if first != last || self.random.one_in(6) {
                self.word("..");
                self.number(*last);
            }
        }
    }

    fn parameter(&mut self, parameter: &ParameterSource) {
        self.words(&[&parameter.name, ":"]);
        self.bit_type(parameter.width);
        self.word("port");
        if let Some(ranges) = &parameter.ranges {
            self.words(&["@", "{"]);
            self.ranges(ranges);
            self.word("}");
        }
    }

    fn register(&mut self, register: &RegisterSource) {
        self.words(&["register", &register.name, "="]);
        for (i, port) in register.ports.iter().enumerate() {
            if i > 0 {
                self.word(",");
            }
            self.modifier(port.modifier);
            self.word(&port.parameter);
            if let Some(offset) = &port.offset {
                self.word("@");
                self.tokens.extend(offset.iter().cloned());
            }
        }
        for (modifier, elements) in &register.masks {
            self.word(",");
            self.modifier(*modifier);
            self.word("mask");
            self.tokens.push(format!("'{elements}'"));
        }
        self.word(":");
        self.bit_type(register.width);
        self.word(";");
    }

    fn variable(&mut self, variable: &VariableSource) {
        self.words(&["variable", &variable.name, "="]);
        for (i, list) in variable.lists.iter().enumerate() {
            if i > 0 {
                self.word(",");
            }
            self.modifier(list.modifier);
            for (j, (register, ranges)) in list.registers.iter().enumerate() {
                if j > 0 {
                    self.word("#");
                }
                self.word(register);
                if let Some(ranges) = ranges {
                    self.word("[");
                    self.ranges(ranges);
                    self.word("]");
                }
            }
        }
        for attribute in &variable.attributes {
            self.word(",");
            match attribute {
                AttributeSource::Volatile => self.word("volatile"),
                AttributeSource::Trigger(modifier) => {
                    self.modifier(*modifier);
                    self.word("trigger");
                }
            }
        }
        self.word(":");
        match variable.kind {
            KindSource::Bool => self.word("bool"),
            KindSource::Int(width) | KindSource::Signed(width) => {
                if matches!(variable.kind, KindSource::Signed(_)) {
                    self.word("signed");
                }
                self.words(&["int", "("]);
                self.number(width);
                self.word(")");
            }
        }
        self.word(";");
    }
}

/// Writes tokens down, with blanks and comments between them.
pub fn spell(tokens: &[String], random: &mut Random, style: Style) -> Vec<u8> {
    let mut text: Vec<u8> = Vec::new();
    let word = |b: Option<&u8>| b.is_some_and(|b| b.is_ascii_alphanumeric() || *b == b'_');
    for token in tokens {
        let gap = match style {
            Style::Tight => String::new(),
            Style::Plain => random.pick(&["", "", "", " ", " ", "\n"]).to_string(),
            Style::Wild => gap(random),
        };
        // Two words must stay apart, and a slash must not begin a comment with the next one.
        let next = gap.as_bytes().first().or(token.as_bytes().first()).copied();
        let glued = word(text.last()) && word(next.as_ref());
        let slashes = text.last() == Some(&b'/') && matches!(next, Some(b'/' | b'*'));
        if glued || slashes {
            text.push(b' ');
        }
        text.extend_from_slice(gap.as_bytes());
        text.extend_from_slice(token.as_bytes());
    }
    if style == Style::Wild {
        text.extend_from_slice(gap(random).as_bytes());
    }
    text
}

/// Blanks and comments, mostly few.
fn gap(random: &mut Random) -> String {
    let mut gap = String::new();
    while random.one_in(2) {
        gap += match random.below(24) {
            0..=9 => " ",
            10..=13 => "\n",
            14..=16 => "\t",
            17 => "/**/",
            18 => "/* * / */",
            19 => "/*/*/",
            20 => "// x\n",
            21 => "//\n",
            22 => "/* 'register ;\r\n$ */",
            _ => "// /* \r '\n",
        };
    }
    gap
}
