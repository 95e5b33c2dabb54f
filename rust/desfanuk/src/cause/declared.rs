//! The declarations of a text that reads, as far as a cause needs them.

use super::offset::value;
use super::scan::{Token, What};

#[derive(Clone, Copy, Debug, PartialEq, Eq)]
pub enum Part {
    Read,
    Write,
}

pub const PARTS: [Part; 2] = [Part::Read, Part::Write];

/// What stands between two commas, behind its `read` or `write`.
pub struct Item<'a, 't> {
    pub part: Option<Part>,
    pub tokens: &'a [Token<'t>],
}

/// A parameter: where its name stands, and its set.
pub struct Parameter {
    pub place: usize,
    /// The lowest and the highest offset of each range.
    pub ranges: Vec<(i64, i64)>,
}

pub struct Piece<'t> {
    pub register: &'t [u8],
    /// The first and the last bit of each range.
    pub bits: Option<Vec<(i64, i64)>>,
}

/// A register or a variable: its items, and the tokens behind the colon.
pub struct Declared<'a, 't> {
    pub is_register: bool,
    pub name: &'t [u8],
    pub place: usize,
    pub items: Vec<Item<'a, 't>>,
    pub kind: &'a [Token<'t>],
}

fn word<'t>(token: &Token<'t>) -> &'t [u8] {
    match token.what {
        What::Word(word) => word,
        _ => b"",
    }
}

fn number(tokens: &[Token<'_>]) -> i64 {
    let numbers = tokens.iter().find_map(|token| match token.what {
        What::Number(number) => Some(number),
        _ => None,
    });
    numbers.unwrap_or(0)
}

fn is_declaring(token: &Token<'_>) -> bool {
    token.is("register") || token.is("variable")
}

/// The parameters: each is a name and a colon before the first declaration.
pub fn parameters(tokens: &[Token<'_>]) -> Vec<Parameter> {
    let end = tokens.iter().position(is_declaring);
    let head = &tokens[..end.unwrap_or(tokens.len())];
    let starts: Vec<usize> = (1..head.len())
        .filter(|&at| head[at].is(":"))
        .map(|at| at - 1)
        .collect();
    let each = starts.iter().enumerate().map(|(nth, &start)| {
        let end = starts.get(nth + 1).copied().unwrap_or(head.len());
        let behind = head.get(start + 2..end).unwrap_or_default();
        let set = behind.iter().position(|token| token.is("{"));
        // Without a set there is the offset 0. A brace that no `@` stands before opens the body.
        let set = set.filter(|&at| at > 0 && behind[at - 1].is("@"));
        Parameter {
            place: head[start].place,
            ranges: set.map_or(vec![(0, 0)], |at| ranges(&behind[at + 1..])),
        }
    });
    each.collect()
}

/// Numbers and ranges up to a closing brace or bracket, a comma between two.
pub fn ranges(tokens: &[Token<'_>]) -> Vec<(i64, i64)> {
    let end = tokens.iter().position(|t| t.is("}") || t.is("]"));
    let inside = &tokens[..end.unwrap_or(tokens.len())];
    let pairs = inside.split(|token| token.is(",")).map(|range| {
        let last = range.len().saturating_sub(1);
        (number(range), number(&range[last..]))
    });
    pairs.collect()
}

/// The registers and variables, in the order of the text.
pub fn declared<'a, 't>(tokens: &'a [Token<'t>]) -> Vec<Declared<'a, 't>> {
    let starts = (0..tokens.len()).filter(|&at| is_declaring(&tokens[at]));
    starts
        .filter_map(|at| {
            let length = tokens[at..].iter().position(|token| token.is(";"))?;
            one(&tokens[at..at + length])
        })
        .collect()
}

/// `register NAME = ITEMS : KIND`, and so a variable.
fn one<'a, 't>(tokens: &'a [Token<'t>]) -> Option<Declared<'a, 't>> {
    let colon = tokens.iter().position(|token| token.is(":"))?;
    Some(Declared {
        is_register: tokens[0].is("register"),
        name: word(tokens.get(1)?),
        place: tokens.get(1)?.place,
        items: items(tokens.get(3..colon)?),
        kind: &tokens[colon + 1..],
    })
}

/// The items between commas that stand in no bracket.
fn items<'a, 't>(tokens: &'a [Token<'t>]) -> Vec<Item<'a, 't>> {
    let mut is_inside = false;
    let parts = tokens.split(move |token| {
        is_inside = token.is("[") || is_inside && !token.is("]");
        token.is(",") && !is_inside
    });
    parts.map(item).collect()
}

fn item<'a, 't>(tokens: &'a [Token<'t>]) -> Item<'a, 't> {
    let part = match tokens.first() {
        Some(first) if first.is("read") => Some(Part::Read),
        Some(first) if first.is("write") => Some(Part::Write),
        _ => None,
    };
    Item {
        part,
        tokens: &tokens[usize::from(part.is_some())..],
    }
}

impl<'a, 't> Item<'a, 't> {
    pub fn begins(&self, bytes: &str) -> bool {
        self.tokens.first().is_some_and(|token| token.is(bytes))
    }

    /// The elements of a mask.
    pub fn elements(&self) -> Option<&'t [u8]> {
        match self.tokens {
            [_, Token {
                what: What::Bits(bits),
                ..
            }] => Some(bits),
            _ => None,
        }
    }

    /// A bit list's pieces: the register's name and its bits' ranges; none where it is whole.
    pub fn pieces(&self) -> Vec<Piece<'t>> {
        let pieces = self.tokens.split(|token| token.is("#"));
        let each = pieces.map(|piece| Piece {
            register: piece.first().map_or(b"", word),
            bits: piece.get(2..).map(ranges),
        });
        each.collect()
    }
}

impl<'a, 't> Declared<'a, 't> {
    fn is_attribute(item: &Item<'_, '_>) -> bool {
        ["mask", "volatile", "trigger"]
            .iter()
            .any(|word| item.begins(word))
    }

    /// The ports or the bit lists.
    pub fn lists(&self) -> impl Iterator<Item = &Item<'a, 't>> {
        self.items.iter().filter(|item| !Self::is_attribute(item))
    }

    pub fn attributes(&self, word: &'static str) -> impl Iterator<Item = &Item<'a, 't>> {
        self.items.iter().filter(move |item| item.begins(word))
    }

    /// The number of `bit[n]` or `int(n)`.
    pub fn width(&self) -> i64 {
        number(self.kind)
    }

    /// The parameter and the offset of a register's part, if it has that part.
    pub fn port(&self, part: Part) -> Option<(&'t [u8], i64)> {
        let port = self
            .lists()
            .find(|item| item.part.is_none_or(|own| own == part))?;
        let offset = port.tokens.get(2..).map_or(Ok(0), value);
        Some((port.tokens.first().map_or(b"", word), offset.ok()?))
    }

    /// Which parts its ports or bit lists give; none where they do not pair.
    pub fn pairing(&self) -> Option<Vec<Part>> {
        let parts: Vec<Option<Part>> = self.lists().map(|item| item.part).collect();
        match parts[..] {
            [None] => Some(PARTS.to_vec()),
            [Some(part)] => Some(vec![part]),
            [Some(one), Some(other)] if one != other => Some(PARTS.to_vec()),
            _ => None,
        }
    }
}
