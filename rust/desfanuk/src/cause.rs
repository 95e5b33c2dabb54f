//! The one cause of a refused text. The refusal's number and its place are proved; which of the causes that the number
//! stands for it is, this reads off the text in ordinary code.

mod declared;
mod offset;
mod scan;

use declared::{declared, parameters, Declared, Item, Parameter, Part, PARTS};
use scan::{scan, Token, What};

use crate::Refusal;

/// What breaks the rule, in a few words.
pub fn cause(text: &[u8], refusal: Refusal, place: usize) -> &'static str {
    let rest = text.get(place..).unwrap_or_default();
    match refusal {
        Refusal::BadToken => return bad_token(rest),
        Refusal::Grammar if rest.is_empty() => return "the text ends where more is due",
        Refusal::Grammar => return "no description goes on with this token",
        _ => {}
    }
    let tokens = scan(text);
    let read = Read {
        tokens: &tokens,
        parameters: parameters(&tokens),
        declared: declared(&tokens),
    };
    let found = match refusal {
        Refusal::Size => read.size(place),
        Refusal::Undeclared => read.undeclared(place),
        Refusal::Offset => read.offset(place),
        Refusal::Ports => read.at(place).and_then(ports),
        Refusal::Place => read.at(place).map(|register| read.served(register)),
        Refusal::Bits => read.at(place).and_then(|variable| read.bits(variable)),
        Refusal::Width => read.width(place),
        Refusal::Behaviour => read.at(place).and_then(|variable| read.behaviour(variable)),
        _ => None,
    };
    found.unwrap_or(refusal.words())
}

fn bad_token(rest: &[u8]) -> &'static str {
    match rest {
        [b'/', b'*', ..] => "a block comment is not closed",
        [b'\'', inside @ ..] => match inside.iter().position(|&b| b == b'\'') {
            None => "a bits literal is not closed",
            Some(0) => "a bits literal is empty",
            Some(_) => "a bits literal holds another character than `0 1 * .`",
        },
        [b'0'..=b'9', ..] => "a number is over 2,147,483,647",
        _ => "no token begins here",
    }
}

/// A text, read as far as a cause needs it.
struct Read<'a, 't> {
    tokens: &'a [Token<'t>],
    parameters: Vec<Parameter>,
    declared: Vec<Declared<'a, 't>>,
}

impl<'a, 't> Read<'a, 't> {
    /// The register or variable whose name stands at a place.
    fn at(&self, place: usize) -> Option<&Declared<'a, 't>> {
        self.declared.iter().find(|one| one.place == place)
    }

    fn register(&self, name: &[u8]) -> Option<&Declared<'a, 't>> {
        let mut registers = self.declared.iter().filter(|one| one.is_register);
        registers.find(|one| one.name == name)
    }

    fn size(&self, place: usize) -> Option<&'static str> {
        let token = self.tokens.iter().find(|token| token.place == place)?;
        let first = self.tokens.iter().find(|token| token.is("register"));
        let is_declared = first.is_some_and(|first| first.place < place);
        Some(match token.what {
            What::Word(b"register") => "it is the 65th register",
            What::Word(b"variable") => "it is the 129th variable",
            What::Word(name) if name.len() > 64 => "a name has more than 64 bytes",
            What::Sign(_) => "it is the 17th parenthesis or minus around a number",
            _ if is_declared => "it is the 9th piece of a bit list",
            What::Number(_) => "it is the 17th range of a parameter",
            _ => "it is the 17th parameter",
        })
    }

    /// The declaration that the name stands in tells what it was to be.
    fn undeclared(&self, place: usize) -> Option<&'static str> {
        let around = self.declared.iter().rfind(|one| one.place < place)?;
        Some(if around.is_register {
            "a port names no parameter declared earlier"
        } else {
            "a piece names no register declared earlier"
        })
    }

    fn offset(&self, place: usize) -> Option<&'static str> {
        if let Some(parameter) = self.parameters.iter().find(|one| one.place == place) {
            let over = |&(low, high): &(i64, i64)| low > 255 || high > 255;
            return Some(if parameter.ranges.iter().any(over) {
                "an offset of the parameter is over 255"
            } else {
                "a range of the parameter goes down"
            });
        }
        let at = self.tokens.iter().position(|token| token.place == place)?;
        if !self.tokens[at].is("@") {
            return Some("the offset is left out, and 0 is not in the parameter's set");
        }
        let value = offset::value(&self.tokens[at + 1..]);
        Some(value.map_or_else(|why| why, |_| "the offset is not in the parameter's set"))
    }

    /// Whether it is read where an earlier register is; else it is written where one is.
    fn served(&self, register: &Declared<'a, 't>) -> &'static str {
        let own = register.port(Part::Read);
        let mut earlier = self
            .declared
            .iter()
            .filter(|one| one.place < register.place);
        if own.is_some() && earlier.any(|one| one.is_register && one.port(Part::Read) == own) {
            "an earlier register is read at the same place"
        } else {
            "an earlier register is written at the same place, and no fixed bit tells the two apart"
        }
    }

    /// Which parts a variable has: a bare list has those that all its registers have.
    fn parts(&self, variable: &Declared<'a, 't>) -> Vec<Part> {
        let mut lists = variable.lists();
        match (lists.next(), lists.next()) {
            (Some(list), None) if list.part.is_none() => self.bare(list),
            _ => variable.pairing().unwrap_or_default(),
        }
    }

    fn bare(&self, list: &Item<'a, 't>) -> Vec<Part> {
        let pieces = list.pieces();
        let all_have = |part: &Part| pieces.iter().all(|piece| self.has(piece.register, *part));
        PARTS.into_iter().filter(all_have).collect()
    }

    fn has(&self, register: &[u8], part: Part) -> bool {
        let pairing = self.register(register).and_then(Declared::pairing);
        pairing.is_some_and(|parts| parts.contains(&part))
    }

    /// The bits of a list, as registers' names and numbers, or the first cause among its pieces.
    fn bits_of(
        &self,
        list: &Item<'a, 't>,
        part: Part,
    ) -> Result<Vec<(&'t [u8], i64)>, &'static str> {
        let mut bits = Vec::new();
        for piece in list.pieces() {
            let Some(register) = self.register(piece.register) else {
                return Ok(bits);
            };
            if !self.has(piece.register, part) {
                return Err("a register has not that part");
            }
            let width = register.width();
            for (high, low) in piece.bits.unwrap_or_else(|| vec![(width - 1, 0)]) {
                if high >= width || low >= width {
                    return Err("a bit is not below its register's width");
                }
                if high < low {
                    return Err("a range rises");
                }
                bits.extend((low..=high).map(|bit| (piece.register, bit)));
            }
        }
        Ok(bits)
    }

    fn is_dot(&self, register: &[u8], bit: i64, part: Part) -> bool {
        let mask = self.register(register).and_then(|register| {
            let mut masks = register.attributes("mask");
            masks.find(|mask| mask.part.is_none_or(|own| own == part))
        });
        let element = mask.and_then(|mask| {
            let elements = mask.elements()?;
            let from_left = elements.len().checked_sub(usize::try_from(bit).ok()? + 1)?;
            elements.get(from_left)
        });
        element.is_none_or(|&element| element == b'.')
    }

    fn bits(&self, variable: &Declared<'a, 't>) -> Option<&'static str> {
        if variable.pairing().is_none() {
            return Some("a bad pairing of bit lists");
        }
        let parts = self.parts(variable);
        if parts.is_empty() {
            return Some("the registers of the bit list have no part in common");
        }
        for part in parts {
            let own = |list: &&Item<'a, 't>| list.part.is_none_or(|own| own == part);
            let bits = match self.bits_of(variable.lists().find(own)?, part) {
                Ok(bits) => bits,
                Err(why) => return Some(why),
            };
            let is_twice = (1..bits.len()).any(|at| bits[..at].contains(&bits[at]));
            if is_twice {
                return Some("a bit stands twice in one part");
            }
            if bits
                .iter()
                .any(|&(name, bit)| !self.is_dot(name, bit, part))
            {
                return Some("a bit is no dot in that part's mask");
            }
            if bits.len() > 32 {
                return Some("the part has over 32 bits");
            }
        }
        None
    }

    fn width(&self, place: usize) -> Option<&'static str> {
        let Some(one) = self.at(place) else {
            return Some("the parameter's width is not 8, 16 or 32");
        };
        if one.is_register {
            return Some(if [8, 16, 32].contains(&one.width()) {
                "the register's width is not that of its port's parameter"
            } else {
                "the register's width is not 8, 16 or 32"
            });
        }
        let bits = |list: &Item<'a, 't>| {
            let part = list.part.or(self.parts(one).first().copied())?;
            Some(self.bits_of(list, part).ok()?.len())
        };
        let widths: Vec<Option<usize>> = one.lists().map(bits).collect();
        let is_bool = one.kind.first().is_some_and(|token| token.is("bool"));
        Some(if widths.windows(2).any(|pair| pair[0] != pair[1]) {
            "the parts' widths differ"
        } else if is_bool {
            "a `bool` has not one bit"
        } else {
            "the type's width is unlike the bits"
        })
    }

    fn behaviour(&self, variable: &Declared<'a, 't>) -> Option<&'static str> {
        let parts = self.parts(variable);
        let is_volatile = variable.attributes("volatile").count();
        if is_volatile > 1 {
            return Some("`volatile` is repeated");
        }
        if is_volatile == 1 && !parts.contains(&Part::Read) {
            return Some("`volatile` is given for a missing part");
        }
        let triggers: Vec<Option<Part>> = variable.attributes("trigger").map(|t| t.part).collect();
        let mut named = triggers.iter().flatten();
        Some(if named.any(|part| !parts.contains(part)) {
            "`trigger` is given for a missing part"
        } else {
            "`trigger` is repeated for a part"
        })
    }
}

fn ports(register: &Declared<'_, '_>) -> Option<&'static str> {
    let Some(parts) = register.pairing() else {
        return Some("a bad pairing of ports");
    };
    let masks: Vec<&Item<'_, '_>> = register.attributes("mask").collect();
    let length = |mask: &&Item<'_, '_>| mask.elements().map(|all| all.len() as i64);
    if masks
        .iter()
        .any(|mask| length(mask) != Some(register.width()))
    {
        return Some("a mask has not as many elements as the register's stated width");
    }
    let mut named = masks.iter().filter_map(|mask| mask.part);
    Some(if named.any(|part| !parts.contains(&part)) {
        "a mask is given for a missing part"
    } else {
        "two masks are given for one part"
    })
}
