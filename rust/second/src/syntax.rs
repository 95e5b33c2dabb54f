//! The grammar of 001 and 003 as far as document 01 takes it, read by recursive descent: refusals
//! 3, 4 and 5.
//!
//! The reader looks one token ahead. A token is left behind only after the grammar and the sizes
//! let it pass, so the first fault met is the one with the earliest place, and a bad token (3)
//! is met before anything else can be said at its place.

use crate::description::{Name, Part};
use crate::load::Refusal;
use crate::token::{scan, Lexeme, Sign, Token, Word};

pub const NAME_BYTES: usize = 64;
pub const PARAMETERS: usize = 16;
pub const RANGES: usize = 16;
pub const REGISTERS: usize = 64;
pub const VARIABLES: usize = 128;
pub const PIECES: usize = 8;
pub const DEPTH: usize = 16;

type Read<T> = Result<T, Refusal>;

/// An integer range as written: `low` and `high` for a parameter, `high` and `low` for bits.
#[derive(Clone, Copy, Debug, PartialEq, Eq)]
pub struct Range {
    pub first: u32,
    pub last: u32,
}

#[derive(Debug)]
pub struct ParameterText {
    pub name: Name,
    pub width: u32,
    pub ranges: Option<Vec<Range>>,
}

#[derive(Debug)]
pub struct RegisterText<'t> {
    pub name: Name,
    pub first: PortText,
    pub second: Option<PortText>,
    pub masks: Vec<MaskText<'t>>,
    pub width: u32,
}

#[derive(Debug)]
pub struct PortText {
    pub modifier: Option<Part>,
    pub parameter: Name,
    pub offset: Option<OffsetText>,
}

/// An offset: the place of its `@`, and its value unless the arithmetic fails.
#[derive(Debug)]
pub struct OffsetText {
    pub place: usize,
    pub value: Option<i32>,
}

#[derive(Debug)]
pub struct MaskText<'t> {
    pub modifier: Option<Part>,
    pub elements: &'t [u8],
}

#[derive(Debug)]
pub struct VariableText {
    pub name: Name,
    pub first: ListText,
    pub second: Option<ListText>,
    pub attributes: Vec<Attribute>,
    pub kind: TypeText,
}

#[derive(Debug)]
pub struct ListText {
    pub modifier: Option<Part>,
    pub pieces: Vec<PieceText>,
}

/// One range of a register's bits; without it the whole register.
#[derive(Debug)]
pub struct PieceText {
    pub register: Name,
    pub bits: Option<Range>,
}

#[derive(Clone, Copy, Debug, PartialEq, Eq)]
pub enum Attribute {
    Volatile,
    Trigger(Option<Part>),
}

#[derive(Clone, Copy, Debug, PartialEq, Eq)]
pub enum TypeText {
    Int(u32),
    SignedInt(u32),
    Bool,
}

pub struct Reader<'t> {
    text: &'t [u8],
    next: Lexeme,
}

impl<'t> Reader<'t> {
    pub fn new(text: &'t [u8]) -> Read<Self> {
        let next = scan(text, 0).map_err(|place| Refusal { number: 3, place })?;
        Ok(Reader { text, next })
    }

    pub fn token(&self) -> Token {
        self.next.token
    }

    /// Leaves the next token behind.
    pub fn advance(&mut self) -> Read<()> {
        self.next = scan(self.text, self.next.end).map_err(|place| Refusal { number: 3, place })?;
        Ok(())
    }

    /// A refusal at the next token.
    pub fn refuse<T>(&self, number: u8) -> Read<T> {
        Err(Refusal {
            number,
            place: self.next.place,
        })
    }

    /// Refusal 5 at the next token, which would be one more than `size` of its kind.
    fn room(&self, count: usize, size: usize) -> Read<()> {
        if count >= size {
            return self.refuse(5);
        }
        Ok(())
    }

    fn take(&mut self, token: Token) -> Read<bool> {
        let here = self.next.token == token;
        if here {
            self.advance()?;
        }
        Ok(here)
    }

    fn take_sign(&mut self, sign: Sign) -> Read<bool> {
        self.take(Token::Sign(sign))
    }

    fn take_word(&mut self, word: Word) -> Read<bool> {
        self.take(Token::Word(word))
    }

    fn sign(&mut self, sign: Sign) -> Read<()> {
        if !self.take_sign(sign)? {
            return self.refuse(4);
        }
        Ok(())
    }

    fn word(&mut self, word: Word) -> Read<()> {
        if !self.take_word(word)? {
            return self.refuse(4);
        }
        Ok(())
    }

    fn name(&mut self) -> Read<Name> {
        let Lexeme { token, place, end } = self.next;
        let length = end - place;
        if token != Token::Name {
            return self.refuse(4);
        }
        if length > NAME_BYTES {
            return self.refuse(5);
        }
        self.advance()?;
        Ok(Name { place, length })
    }

    fn number(&mut self) -> Read<u32> {
        let Token::Number(value) = self.next.token else {
            return self.refuse(4);
        };
        self.advance()?;
        Ok(value)
    }

    fn modifier(&mut self) -> Read<Option<Part>> {
        let part = match self.next.token {
            Token::Word(Word::Read) => Part::Read,
            Token::Word(Word::Write) => Part::Write,
            _ => return Ok(None),
        };
        self.advance()?;
        Ok(Some(part))
    }

    /// `device ident (`
    pub fn heading(&mut self) -> Read<Name> {
        self.word(Word::Device)?;
        let name = self.name()?;
        self.sign(Sign::OpenParenthesis)?;
        Ok(name)
    }

    /// A parameter after `count` others.
    pub fn parameter(&mut self, count: usize) -> Read<ParameterText> {
        if self.token() == Token::Name {
            self.room(count, PARAMETERS)?;
        }
        let name = self.name()?;
        self.sign(Sign::Colon)?;
        let width = self.bit_type()?;
        self.word(Word::Port)?;
        let ranges = if self.take_sign(Sign::At)? {
            self.sign(Sign::OpenBrace)?;
            let mut ranges = vec![self.range(0, RANGES)?];
            while self.take_sign(Sign::Comma)? {
                ranges.push(self.range(ranges.len(), RANGES)?);
            }
            self.sign(Sign::CloseBrace)?;
            Some(ranges)
        } else {
            None
        };
        Ok(ParameterText {
            name,
            width,
            ranges,
        })
    }

    /// What follows a parameter: another one (`true`), or the device's body.
    pub fn another_parameter(&mut self) -> Read<bool> {
        if self.take_sign(Sign::Comma)? {
            return Ok(true);
        }
        self.sign(Sign::CloseParenthesis)?;
        self.sign(Sign::OpenBrace)?;
        Ok(false)
    }

    /// `bit [ n ]`
    fn bit_type(&mut self) -> Read<u32> {
        self.word(Word::Bit)?;
        self.sign(Sign::OpenBracket)?;
        let width = self.number()?;
        self.sign(Sign::CloseBracket)?;
        Ok(width)
    }

    /// A range after `count` others, with room for `size` of them.
    fn range(&mut self, count: usize, size: usize) -> Read<Range> {
        if let Token::Number(_) = self.token() {
            self.room(count, size)?;
        }
        let first = self.number()?;
        let last = if self.take_sign(Sign::DotDot)? {
            self.number()?
        } else {
            first
        };
        Ok(Range { first, last })
    }

    /// The word `register` or `variable` after `count` others of its kind.
    pub fn declaration_word(&mut self, count: usize, size: usize) -> Read<()> {
        self.room(count, size)?;
        self.advance()
    }

    /// A register's definition, from its name to its semicolon.
    pub fn register(&mut self) -> Read<RegisterText<'t>> {
        let name = self.name()?;
        self.sign(Sign::Equals)?;
        let modifier = self.modifier()?;
        let first = self.port(modifier)?;
        let mut second = None;
        let mut masks = Vec::new();
        while self.take_sign(Sign::Comma)? {
            let modifier = self.modifier()?;
            if self.token() == Token::Name && second.is_none() && masks.is_empty() {
                second = Some(self.port(modifier)?);
            } else {
                let elements = self.mask()?;
                masks.push(MaskText { modifier, elements });
            }
        }
        self.sign(Sign::Colon)?;
        let width = self.bit_type()?;
        self.sign(Sign::Semicolon)?;
        Ok(RegisterText {
            name,
            first,
            second,
            masks,
            width,
        })
    }

    fn port(&mut self, modifier: Option<Part>) -> Read<PortText> {
        let parameter = self.name()?;
        let place = self.next.place;
        let offset = if self.take_sign(Sign::At)? {
            let value = self.expression(DEPTH)?;
            Some(OffsetText { place, value })
        } else {
            None
        };
        Ok(PortText {
            modifier,
            parameter,
            offset,
        })
    }

    /// `mask` and its elements, quotes taken off.
    fn mask(&mut self) -> Read<&'t [u8]> {
        self.word(Word::Mask)?;
        let Lexeme { token, place, end } = self.next;
        if token != Token::Bits {
            return self.refuse(4);
        }
        self.advance()?;
        Ok(&self.text[place + 1..end - 1])
    }

    /// A variable's definition, from its name to its semicolon.
    pub fn variable(&mut self) -> Read<VariableText> {
        let name = self.name()?;
        self.sign(Sign::Equals)?;
        let modifier = self.modifier()?;
        let first = self.list(modifier)?;
        let mut second = None;
        let mut attributes = Vec::new();
        while self.take_sign(Sign::Comma)? {
            if self.take_word(Word::Volatile)? {
                attributes.push(Attribute::Volatile);
                continue;
            }
            let modifier = self.modifier()?;
            if self.token() == Token::Name && second.is_none() && attributes.is_empty() {
                second = Some(self.list(modifier)?);
            } else {
                self.word(Word::Trigger)?;
                attributes.push(Attribute::Trigger(modifier));
            }
        }
        self.sign(Sign::Colon)?;
        let kind = self.variable_type()?;
        self.sign(Sign::Semicolon)?;
        Ok(VariableText {
            name,
            first,
            second,
            attributes,
            kind,
        })
    }

    /// A bit list. Its ninth piece is refused at its first token: the register's name, or the
    /// number in the brackets.
    fn list(&mut self, modifier: Option<Part>) -> Read<ListText> {
        let mut pieces = Vec::new();
        loop {
            if self.token() == Token::Name {
                self.room(pieces.len(), PIECES)?;
            }
            let register = self.name()?;
            if self.take_sign(Sign::OpenBracket)? {
                loop {
                    let bits = Some(self.range(pieces.len(), PIECES)?);
                    pieces.push(PieceText { register, bits });
                    if !self.take_sign(Sign::Comma)? {
                        break;
                    }
                }
                self.sign(Sign::CloseBracket)?;
            } else {
                let bits = None;
                pieces.push(PieceText { register, bits });
            }
            if !self.take_sign(Sign::Hash)? {
                return Ok(ListText { modifier, pieces });
            }
        }
    }

    fn variable_type(&mut self) -> Read<TypeText> {
        if self.take_word(Word::Bool)? {
            return Ok(TypeText::Bool);
        }
        let signed = self.take_word(Word::Signed)?;
        self.word(Word::Int)?;
        self.sign(Sign::OpenParenthesis)?;
        let width = self.number()?;
        self.sign(Sign::CloseParenthesis)?;
        Ok(if signed {
            TypeText::SignedInt(width)
        } else {
            TypeText::Int(width)
        })
    }

    /// A static expression with room for `depth` more parentheses and minuses around a number.
    /// Its value is `None` where the arithmetic fails anywhere in it.
    fn expression(&mut self, depth: usize) -> Read<Option<i32>> {
        let mut value = self.product(depth)?;
        loop {
            let combine = match self.token() {
                Token::Sign(Sign::Plus) => i32::checked_add,
                Token::Sign(Sign::Minus) => i32::checked_sub,
                _ => return Ok(value),
            };
            self.advance()?;
            let right = self.product(depth)?;
            value = both(value, right, combine);
        }
    }

    fn product(&mut self, depth: usize) -> Read<Option<i32>> {
        let mut value = self.operand(depth)?;
        loop {
            let combine = match self.token() {
                Token::Sign(Sign::Star) => i32::checked_mul,
                Token::Sign(Sign::Slash) => i32::checked_div,
                Token::Sign(Sign::Percent) => remainder,
                _ => return Ok(value),
            };
            self.advance()?;
            let right = self.operand(depth)?;
            value = both(value, right, combine);
        }
    }

    fn operand(&mut self, depth: usize) -> Read<Option<i32>> {
        match self.token() {
            // A literal is at most 2,147,483,647.
            Token::Number(value) => {
                self.advance()?;
                Ok(i32::try_from(value).ok())
            }
            Token::Sign(Sign::OpenParenthesis) => {
                self.room(DEPTH - depth, DEPTH)?;
                self.advance()?;
                let value = self.expression(depth - 1)?;
                self.sign(Sign::CloseParenthesis)?;
                Ok(value)
            }
            Token::Sign(Sign::Minus) => {
                self.room(DEPTH - depth, DEPTH)?;
                self.advance()?;
                let value = self.operand(depth - 1)?;
                Ok(value.and_then(i32::checked_neg))
            }
            _ => self.refuse(4),
        }
    }

    /// The end of the device: nothing but the end of the text may follow its brace.
    pub fn finish(&mut self) -> Read<()> {
        self.sign(Sign::CloseBrace)?;
        if self.token() != Token::End {
            return self.refuse(4);
        }
        Ok(())
    }
}

fn both(
    left: Option<i32>,
    right: Option<i32>,
    combine: fn(i32, i32) -> Option<i32>,
) -> Option<i32> {
    combine(left?, right?)
}

/// The remainder has the dividend's sign. The least number has remainder 0 by -1, though their
/// quotient is out of range: the quotient is no value of the expression.
fn remainder(left: i32, right: i32) -> Option<i32> {
    if right == -1 {
        return Some(0);
    }
    left.checked_rem(right)
}

#[cfg(test)]
mod tests {
    use super::*;

    fn value(text: &str) -> Result<Option<i32>, (u8, usize)> {
        let refused = |refusal: Refusal| (refusal.number, refusal.place);
        let mut reader = Reader::new(text.as_bytes()).map_err(refused)?;
        let value = reader.expression(DEPTH).map_err(refused)?;
        if reader.token() != Token::End {
            return reader.refuse(4).map_err(refused);
        }
        Ok(value)
    }

    #[test]
    fn values() {
        for (text, want) in [
            ("8-3-2", Some(3)),
            ("(1+2)*1", Some(3)),
            ("1+2*3", Some(7)),
            ("1-2", Some(-1)),
            ("7/0", None),
            ("7%0", None),
            ("-7/2", Some(-3)),
            ("-7%2", Some(-1)),
            ("7%-2", Some(1)),
            ("7/-2", Some(-3)),
            ("2--1", Some(3)),
            ("--1", Some(1)),
            ("- -1", Some(1)),
            ("2*-1", Some(-2)),
            ("8/4/2", Some(1)),
            ("8/4*2", Some(4)),
            ("7%4%2", Some(1)),
            ("0*(1/0)", None),
            ("0*(65536*65536)", None),
            ("2147483647+1", None),
            ("-2147483647-1", Some(i32::MIN)),
            ("-2147483647-2", None),
            ("-(-2147483647-1)", None),
            ("(-2147483647-1)%-1", Some(0)),
            ("(-2147483647-1)/-1", None),
            ("4//2\n", Some(4)),
        ] {
            assert_eq!(value(text), Ok(want), "{text}");
        }
    }

    #[test]
    fn no_expression() {
        for (text, place) in [
            ("", 0),
            ("+1", 0),
            ("1+", 2),
            ("(1", 2),
            ("1)", 1),
            ("()", 1),
            ("true", 0),
            ("b", 0),
            ("!1", 0),
            ("(1<2)", 2),
            ("1 2", 2),
            ("'1'", 0),
        ] {
            assert_eq!(value(text), Err((4, place)), "{text}");
        }
        assert_eq!(value("4/*2"), Err((3, 1)));
        assert_eq!(value("-2147483648"), Err((3, 1)));
    }

    #[test]
    fn depth_is_nesting() {
        let around = |open: &str, n: usize, close: &str| open.repeat(n) + "1" + &close.repeat(n);
        assert_eq!(value(&around("(", 16, ")")), Ok(Some(1)));
        assert_eq!(value(&around("(", 17, ")")), Err((5, 16)));
        assert_eq!(value(&around("-", 16, "")), Ok(Some(1)));
        assert_eq!(value(&around("-", 17, "")), Err((5, 16)));
        assert_eq!(value(&around("-(", 8, ")")), Ok(Some(1)));
        assert_eq!(value(&around("-(", 9, ")")), Err((5, 16)));
        assert_eq!(value(&("(".repeat(17) + ")")), Err((5, 16)));
        assert_eq!(value(&("(".repeat(16) + ")")), Err((4, 16)));
        assert_eq!(value(&("(1)+".repeat(40) + "(1)")), Ok(Some(41)));
        assert_eq!(value(&("-1*".repeat(40) + "-1")), Ok(Some(-1)));
        assert_eq!(value(&("1-".repeat(40) + "1")), Ok(Some(-39)));
    }
}
