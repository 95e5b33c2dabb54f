//! A station: a description in use, with the record, the marks and the operation in hand.

use crate::raw::{self, ANSWER_WORDS, OPERATION_WORDS};
use crate::{Described, Refusal, Variable};

/// Whether an access reads or writes.
#[derive(Clone, Copy, Debug, PartialEq, Eq)]
pub enum Direction {
    Read,
    Write,
}

/// The number that a register holds or an access carries: 8, 16 or 32 bits, as the register has
/// ([`Description::register_width`](crate::Description::register_width)). In one that is handed in, bits
/// above the width count as 0.
pub type Number = u32;

/// One port access.
#[derive(Clone, Copy, Debug, PartialEq, Eq)]
pub struct Access {
    pub direction: Direction,
    /// The parameter's index; the station knows at which port it is.
    pub parameter: usize,
    /// The offset from that port.
    pub offset: u8,
    /// The number to write; 0 when reading.
    pub number: Number,
}

/// What a begin or a confirmation answers.
#[derive(Clone, Copy, Debug, PartialEq, Eq)]
#[must_use = "an operation goes on until it is done or abandoned"]
pub enum Answer {
    /// This access is to be performed next, and then confirmed.
    Offer(Access),
    /// The operation is over: the value read or written, and the number of its accesses.
    Done { value: i64, accesses: usize },
    /// Nothing changed, and nothing is offered.
    Refused(Refusal),
    /// The number that was read contradicts the fixed bits of this register, by its index: refused by
    /// 52 ([`Refusal::Contradicted`]), and the read is over, without a value. Nothing else changed.
    Contradicted { register: usize },
}

/// The operation in hand. Its step is the number of its accesses confirmed so far; `gathered` and
/// `value` are the bits of the variable.
#[derive(Clone, Copy, Debug, PartialEq, Eq)]
pub enum Operation<'d> {
    Idle,
    Reading {
        variable: Variable<'d>,
        step: usize,
        gathered: u32,
    },
    Writing {
        variable: Variable<'d>,
        step: usize,
        value: u32,
    },
}

/// A description at work on a board, from an opening on: one station to a board (the crate's manual
/// says what two would mean). So it is not cloned:
///
/// ```compile_fail
/// fn second<'d>(station: &desfanuk::Station<'d>) -> desfanuk::Station<'d> {
///     station.clone()
/// }
/// ```
#[derive(Debug)]
pub struct Station<'d> {
    pub(crate) description: Described<'d>,
    pub(crate) record: Vec<Number>,
    pub(crate) marks: Vec<u8>,
    pub(crate) operation: [u64; OPERATION_WORDS],
}

impl<'d> Station<'d> {
    /// Opens a description with the number that each register holds at power-on. Fewer numbers than
    /// registers are refused by 21; what is over is ignored.
    pub fn open(description: Described<'d>, power_on: &[Number]) -> Result<Station<'d>, Refusal> {
        let mut station = Station {
            description,
            record: vec![0; description.registers()],
            marks: vec![0; description.variables()],
            operation: [0; OPERATION_WORDS],
        };
        station.open_again(power_on)?;
        Ok(station)
    }

    /// Opens it anew, as after the board was switched off and on: ends the operation in hand and
    /// clears every mark. Refused as [`Station::open`] is.
    pub fn open_again(&mut self, power_on: &[Number]) -> Result<(), Refusal> {
        let mut answer = [0; ANSWER_WORDS];
        raw::open(
            self.description.tables().words(),
            power_on,
            &mut self.record,
            &mut self.marks,
            &mut self.operation,
            &mut answer,
        );
        unless_refused(answer)
    }

    /// Begins the read of a variable.
    pub fn begin_read(&mut self, variable: Variable<'d>) -> Answer {
        let mut answer = [0; ANSWER_WORDS];
        raw::begin_read(
            self.description.tables().words(),
            &self.record,
            &self.marks,
            &mut self.operation,
            variable.index(),
            &mut answer,
        );
        answered(answer)
    }

    /// Begins the write of a variable. A value below the least of its type is refused by 27, one
    /// above the greatest by 55; [`Variable::range`] tells both.
    pub fn begin_write(&mut self, variable: Variable<'d>, value: i64) -> Answer {
        let mut answer = [0; ANSWER_WORDS];
        raw::begin_write(
            self.description.tables().words(),
            &self.record,
            &self.marks,
            &mut self.operation,
            variable.index(),
            value,
            &mut answer,
        );
        answered(answer)
    }

    /// Confirms that the access on offer was performed, once. The number is what was read, and its
    /// fixed bits must be as the register's read mask has them; for a write it is ignored.
    pub fn confirm(&mut self, number: Number) -> Answer {
        let mut answer = [0; ANSWER_WORDS];
        raw::confirm(
            self.description.tables().words(),
            &mut self.record,
            &mut self.marks,
            &mut self.operation,
            number,
            &mut answer,
        );
        answered(answer)
    }

    /// Abandons the operation in hand, whether or not the access on offer was performed. A variable
    /// whose write is abandoned is half-written: reading it is refused (28) until a write of it
    /// finishes.
    pub fn abandon(&mut self) -> Result<(), Refusal> {
        let mut answer = [0; ANSWER_WORDS];
        raw::abandon(
            self.description.tables().words(),
            &self.record,
            &mut self.marks,
            &mut self.operation,
            &mut answer,
        );
        unless_refused(answer)
    }

    pub fn description(&self) -> Described<'d> {
        self.description
    }

    /// For each register the number last confirmed as written, or else its power-on number.
    pub fn record(&self) -> &[Number] {
        &self.record
    }

    /// Whether an abandoned write left the variable half-written.
    pub fn half_written(&self, variable: Variable<'d>) -> bool {
        self.marks[variable.index()] != 0
    }

    pub fn operation(&self) -> Operation<'d> {
        let number = |word: u64| usize::try_from(word).expect("a number of an operation");
        let variable = |word| {
            self.description
                .variable_at(number(word))
                .expect("a variable")
        };
        let bits = |word: u64| u32::try_from(word).expect("at most 32 bits");
        match self.operation {
            [0, ..] => Operation::Idle,
            [1, index, step, gathered] => Operation::Reading {
                variable: variable(index),
                step: number(step),
                gathered: bits(gathered),
            },
            [2, index, step, value] => Operation::Writing {
                variable: variable(index),
                step: number(step),
                value: bits(value),
            },
            words => unreachable!("the calls leave an operation, not {words:?}"),
        }
    }
}

/// The refusal that words tell, if they do.
fn unless_refused(words: [i64; ANSWER_WORDS]) -> Result<(), Refusal> {
    match words {
        [0, number, 0, 0, 0] => Err(u8::try_from(number)
            .ok()
            .and_then(Refusal::of)
            .expect("a refusal's number")),
        _ => Ok(()),
    }
}

/// The answer of a begin or a confirmation that words tell.
pub(crate) fn answered(words: [i64; ANSWER_WORDS]) -> Answer {
    if let Err(refusal) = unless_refused(words) {
        return Answer::Refused(refusal);
    }
    let number = |word: i64| usize::try_from(word).expect("a number of an answer");
    match words {
        [2, direction, parameter, offset, written] => Answer::Offer(Access {
            direction: if direction == 0 {
                Direction::Read
            } else {
                Direction::Write
            },
            parameter: number(parameter),
            offset: u8::try_from(offset).expect("an offset"),
            number: Number::try_from(written).expect("a number of a register"),
        }),
        [3, value, accesses, 0, 0] => Answer::Done {
            value,
            accesses: number(accesses),
        },
        [5, 52, register, 0, 0] => Answer::Contradicted {
            register: number(register),
        },
        _ => unreachable!("a begin or a confirmation answers, not {words:?}"),
    }
}
