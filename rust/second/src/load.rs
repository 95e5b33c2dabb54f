//! Loading a text: refusals 2 to 16, or the description.

use std::fmt;

use crate::description::{Description, Name};
use crate::rules::Judge;
use crate::syntax::{ParameterText, Reader, RegisterText, VariableText, REGISTERS, VARIABLES};
use crate::token::{Token, Word};

/// The longest text, in bytes.
pub const TEXT_BYTES: usize = 8192;

#[derive(Clone, Debug, PartialEq, Eq)]
pub enum Verdict {
    Accepted { description: Description },
    Refused { number: u8, place: usize },
}

/// A refusal's number and byte place.
#[derive(Clone, Copy, Debug, PartialEq, Eq)]
pub struct Refusal {
    pub number: u8,
    pub place: usize,
}

impl fmt::Display for Verdict {
    fn fmt(&self, f: &mut fmt::Formatter) -> fmt::Result {
        match self {
            Verdict::Accepted { description } => write!(
                f,
                "accepted {} {} {}",
                description.parameters.len(),
                description.registers.len(),
                description.variables.len()
            ),
            Verdict::Refused { number, place } => write!(f, "refused {number} {place}"),
        }
    }
}

pub fn load(text: &[u8]) -> Verdict {
    match describe(text) {
        Ok(description) => Verdict::Accepted { description },
        Err(Refusal { number, place }) => Verdict::Refused { number, place },
    }
}

/// What a text declares, in its order.
enum Declared<'t> {
    Device(Name),
    Parameter(ParameterText),
    Register(RegisterText<'t>),
    Variable(VariableText),
}

/// How much a text declares.
#[derive(Clone, Copy, Debug, PartialEq, Eq)]
pub struct Counts {
    pub parameters: usize,
    pub registers: usize,
    pub variables: usize,
}

/// What reading a text comes to, its rules aside: how much it declares, or refusal 3, 4 or 5.
#[derive(Clone, Copy, Debug, PartialEq, Eq)]
pub enum Outline {
    Reads(Counts),
    Refused(Refusal),
}

impl fmt::Display for Outline {
    fn fmt(&self, f: &mut fmt::Formatter) -> fmt::Result {
        match self {
            Outline::Reads(counts) => write!(
                f,
                "reads {} {} {}",
                counts.parameters, counts.registers, counts.variables
            ),
            Outline::Refused(Refusal { number, place }) => write!(f, "refused {number} {place}"),
        }
    }
}

pub fn outline(text: &[u8]) -> Outline {
    match read(text, |_| ()) {
        Ok(counts) => Outline::Reads(counts),
        Err(refusal) => Outline::Refused(refusal),
    }
}

/// Reads the whole text (3 to 5) and hands on each declaration as soon as it is read.
fn read<'t>(text: &'t [u8], mut each: impl FnMut(Declared<'t>)) -> Result<Counts, Refusal> {
    let mut reader = Reader::new(text)?;
    each(Declared::Device(reader.heading()?));
    let mut parameters = 0;
    loop {
        let parameter = reader.parameter(parameters)?;
        parameters += 1;
        each(Declared::Parameter(parameter));
        if !reader.another_parameter()? {
            break;
        }
    }

    let mut registers = 0;
    let mut variables = 0;
    loop {
        match reader.token() {
            Token::Word(Word::Register) => {
                reader.declaration_word(registers, REGISTERS)?;
                registers += 1;
                each(Declared::Register(reader.register()?));
            }
            Token::Word(Word::Variable) => {
                reader.declaration_word(variables, VARIABLES)?;
                variables += 1;
                each(Declared::Variable(reader.variable()?));
            }
            _ if registers + variables == 0 => return reader.refuse(4),
            _ => break,
        }
    }
    reader.finish()?;
    Ok(Counts {
        parameters,
        registers,
        variables,
    })
}

/// Each declaration is judged (6 to 15) as soon as it is read, but the first rule broken waits until the text has been
/// read to its end.
fn describe(text: &[u8]) -> Result<Description, Refusal> {
    if text.len() > TEXT_BYTES {
        return Err(Refusal {
            number: 2,
            place: 0,
        });
    }
    let mut judge = Judge::new(text);
    let mut broken = Ok(());
    read(text, |declared| {
        if broken.is_ok() {
            broken = match declared {
                Declared::Device(name) => judge.device(name),
                Declared::Parameter(parameter) => judge.parameter(parameter),
                Declared::Register(register) => judge.register(register),
                Declared::Variable(variable) => judge.variable(variable),
            };
        }
    })?;
    broken?;
    judge.finish()
}
