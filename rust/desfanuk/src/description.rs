//! A description: the text, and the tables that loading it fills.

use std::error::Error;
use std::fmt;

use crate::cause::cause;
use crate::raw::{self, PARAMETERS_WORDS, REGISTERS_WORDS, VARIABLES_WORDS, VERDICT_WORDS};
use crate::{Number, Refusal};

/// Words of an entry of each table; its name's place and length come first.
pub(crate) const PARAMETER_ENTRY: usize = 36;
pub(crate) const REGISTER_ENTRY: usize = 15;
pub(crate) const VARIABLE_ENTRY: usize = 59;

/// The answer to a text.
#[derive(Clone, Copy, Debug, PartialEq, Eq)]
pub enum Verdict {
    /// Accepted, with the counts of parameters, registers and variables.
    Accepted {
        parameters: usize,
        registers: usize,
        variables: usize,
    },
    /// Refused by the first rule broken.
    Refused(Refused),
}

/// The first rule that a text breaks.
#[derive(Clone, Copy, Debug, PartialEq, Eq)]
pub struct Refused {
    pub refusal: Refusal,
    /// Where in the text, as a number of bytes before it.
    pub place: usize,
    /// The line of the place, from 1.
    pub line: usize,
    /// Its column, in bytes from 1.
    pub column: usize,
    /// What breaks the rule: of all that the refusal stands for, the one that is so here.
    pub cause: &'static str,
}

impl Refused {
    fn of(refusal: Refusal, place: usize, text: &[u8]) -> Refused {
        let before = &text[..place.min(text.len())];
        let is_end = |&b: &u8| b == b'\n';
        let start = before.iter().rposition(is_end);
        Refused {
            refusal,
            place,
            line: 1 + before.iter().filter(|b| is_end(b)).count(),
            column: 1 + before.len() - start.map_or(0, |at| at + 1),
            cause: cause(text, refusal, place),
        }
    }
}

impl Verdict {
    /// The verdict on a text that words tell.
    pub(crate) fn of(words: [u64; VERDICT_WORDS], text: &[u8]) -> Verdict {
        let number = |word: u64| usize::try_from(word).expect("a number of a verdict");
        match words {
            [0, refusal, place, 0] => Verdict::Refused(Refused::of(
                u8::try_from(refusal)
                    .ok()
                    .and_then(Refusal::of)
                    .expect("a refusal's number"),
                number(place),
                text,
            )),
            [1, parameters, registers, variables] => Verdict::Accepted {
                parameters: number(parameters),
                registers: number(registers),
                variables: number(variables),
            },
            _ => unreachable!("loading tells a verdict, not {words:?}"),
        }
    }
}

/// As the verdict program writes it: `accepted P R V` or `refused N PLACE`.
impl fmt::Display for Verdict {
    fn fmt(&self, f: &mut fmt::Formatter<'_>) -> fmt::Result {
        match self {
            Verdict::Accepted {
                parameters,
                registers,
                variables,
            } => write!(f, "accepted {parameters} {registers} {variables}"),
            Verdict::Refused(Refused { refusal, place, .. }) => {
                write!(f, "refused {} {place}", refusal.number())
            }
        }
    }
}

impl fmt::Display for Refused {
    fn fmt(&self, f: &mut fmt::Formatter<'_>) -> fmt::Result {
        let Refused {
            refusal,
            line,
            column,
            cause,
            ..
        } = self;
        let number = refusal.number();
        write!(
            f,
            "refused ({number}), line {line}, column {column}: {cause}"
        )
    }
}

impl Error for Refused {}

/// The three tables of docs/TABLES.md, of their stated sizes. No entry is in use at first.
#[derive(Clone, PartialEq, Eq)]
pub struct Tables {
    parameters: Box<[u32]>,
    registers: Box<[u32]>,
    variables: Box<[u32]>,
}

impl Tables {
    pub fn new() -> Tables {
        let empty = |words: usize| vec![0; words].into_boxed_slice();
        Tables {
            parameters: empty(PARAMETERS_WORDS),
            registers: empty(REGISTERS_WORDS),
            variables: empty(VARIABLES_WORDS),
        }
    }

    /// Loads a text. Accepting fills the tables with its description; a refusal leaves them without
    /// an entry, but one by 2, which leaves them as they were.
    pub fn load(&mut self, text: &[u8]) -> Verdict {
        let mut words = [0; VERDICT_WORDS];
        raw::load(
            text,
            &mut self.parameters,
            &mut self.registers,
            &mut self.variables,
            &mut words,
        );
        Verdict::of(words, text)
    }

    /// Ends a text in pieces, and loads it as `load` does.
    pub(crate) fn end(&mut self, text: &[u8], store: &[u8], taken: &mut [u64]) -> Verdict {
        let mut words = [0; VERDICT_WORDS];
        raw::end_pieces(
            store,
            taken,
            &mut self.parameters,
            &mut self.registers,
            &mut self.variables,
            &mut words,
        );
        Verdict::of(words, text)
    }

    /// The words, lent to the calls.
    pub fn words(&self) -> raw::Tables<'_> {
        raw::Tables {
            parameters: &self.parameters,
            registers: &self.registers,
            variables: &self.variables,
        }
    }
}

impl Default for Tables {
    fn default() -> Tables {
        Tables::new()
    }
}

impl fmt::Debug for Tables {
    fn fmt(&self, f: &mut fmt::Formatter<'_>) -> fmt::Result {
        f.debug_struct("Tables")
            .field("parameters", &self.parameters[0])
            .field("registers", &self.registers[0])
            .field("variables", &self.variables[0])
            .finish_non_exhaustive()
    }
}

/// An accepted text with its tables. Parameters and registers are known by their index, from 0 in the
/// order of the text; variables are found where it is in use ([`Description::with`]).
#[derive(Clone, Debug, PartialEq, Eq)]
pub struct Description {
    text: Vec<u8>,
    tables: Tables,
}

impl Description {
    /// Loads a text: its description, or the first rule that it breaks.
    pub fn load(text: impl Into<Vec<u8>>) -> Result<Description, Refused> {
        let text = text.into();
        let mut tables = Tables::new();
        match tables.load(&text) {
            Verdict::Accepted { .. } => Ok(Description { text, tables }),
            Verdict::Refused(refused) => Err(refused),
        }
    }

    /// The description of a text that these tables were loaded with.
    pub(crate) fn of(text: Vec<u8>, tables: Tables) -> Description {
        Description { text, tables }
    }

    pub fn text(&self) -> &[u8] {
        &self.text
    }

    pub fn tables(&self) -> &Tables {
        &self.tables
    }

    /// How many parameters it has.
    pub fn parameters(&self) -> usize {
        self.tables.parameters[0] as usize
    }

    /// How many registers it has.
    pub fn registers(&self) -> usize {
        self.tables.registers[0] as usize
    }

    /// How many variables it has.
    pub fn variables(&self) -> usize {
        self.tables.variables[0] as usize
    }

    /// The name of a parameter, if there is one of this index.
    pub fn parameter_name(&self, index: usize) -> Option<&str> {
        self.name(&self.tables.parameters, PARAMETER_ENTRY, index)
    }

    /// The name of a register, if there is one of this index.
    pub fn register_name(&self, index: usize) -> Option<&str> {
        self.name(&self.tables.registers, REGISTER_ENTRY, index)
    }

    /// How many bits the port of a parameter has, if there is one of this index: 8, 16 or 32, as all
    /// its registers have. An access of it carries so many.
    pub fn port_width(&self, parameter: usize) -> Option<usize> {
        width(&self.tables.parameters, PARAMETER_ENTRY, parameter)
    }

    /// How many bits a register has, if there is one of this index: 8, 16 or 32.
    pub fn register_width(&self, register: usize) -> Option<usize> {
        width(&self.tables.registers, REGISTER_ENTRY, register)
    }

    /// The bits of a number that are not what a register's read mask has fixed, if there is a register
    /// of this index and it can be read. A read that brings such a number is refused by 52.
    pub fn contradicting(&self, register: usize, number: Number) -> Option<Number> {
        if register >= self.registers() {
            return None;
        }
        let [has, fixed, ones] =
            [4, 8, 9].map(|word| self.tables.registers[REGISTER_ENTRY * register + word]);
        (has == 1).then_some((number & fixed) ^ ones)
    }

    /// The name of the variable of this index, which is one of its own.
    pub(crate) fn variable_name(&self, index: usize) -> &str {
        let name = self.name(&self.tables.variables, VARIABLE_ENTRY, index);
        name.expect("a variable of this description")
    }

    fn name(&self, table: &[u32], entry: usize, index: usize) -> Option<&str> {
        if index >= table[0] as usize {
            return None;
        }
        let place = table[1 + entry * index] as usize;
        let length = table[2 + entry * index] as usize;
        let name = &self.text[place..place + length];
        Some(std::str::from_utf8(name).expect("a name is letters, digits and underscores"))
    }
}

/// The width of an entry, which is the word behind its name's.
fn width(table: &[u32], entry: usize, index: usize) -> Option<usize> {
    (index < table[0] as usize).then(|| table[3 + entry * index] as usize)
}
