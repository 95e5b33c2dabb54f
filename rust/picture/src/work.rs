//! A station of the proved archive at work on the simulated board. Every number that the page shows
//! of an access is one that the station offered, or that the board gave it.

use desfanuk::{Access, Answer, Described, Direction, Number, Refusal, Station, Variable};

use crate::board::Board;

/// An access that was made.
#[derive(Clone, Copy, Debug, PartialEq, Eq)]
pub struct Made {
    pub access: Access,
    pub register: usize,
    /// The number that it carried, either way.
    pub number: Number,
}

/// How a read or write ended.
#[derive(Clone, Copy, Debug, PartialEq, Eq)]
pub enum Ending {
    Done { value: i64, accesses: usize },
    Refused(Refusal),
}

/// A read or write to its end.
#[derive(Clone, Debug, PartialEq, Eq)]
pub struct Work {
    pub made: Vec<Made>,
    pub ending: Ending,
}

/// A station, and the board that it works on.
pub struct Desk<'d> {
    pub station: Station<'d>,
    pub board: Board<'d>,
}

impl<'d> Desk<'d> {
    /// Opens a station on a board as it is when switched on.
    pub fn new(description: Described<'d>) -> Desk<'d> {
        Desk::on(description, Board::new(description))
    }

    /// Opens a station on a board as it is.
    pub fn on(description: Described<'d>, board: Board<'d>) -> Desk<'d> {
        let station = Station::open(description, &board.cells).expect("a number for each register");
        Desk { station, board }
    }

    /// A desk at which each variable that can be written has been, with a former value.
    pub fn in_use(description: Described<'d>) -> Desk<'d> {
        let mut desk = Desk::new(description);
        for variable in description.each_variable() {
            if variable.part(Direction::Write).is_some() {
                desk.write(variable, former(variable));
            }
        }
        desk
    }

    pub fn write(&mut self, variable: Variable<'d>, value: i64) -> Work {
        let begun = self.station.begin_write(variable, value);
        self.carry_out(begun)
    }

    pub fn read(&mut self, variable: Variable<'d>) -> Work {
        let begun = self.station.begin_read(variable);
        self.carry_out(begun)
    }

    fn carry_out(&mut self, begun: Answer) -> Work {
        let mut made = Vec::new();
        let mut answer = begun;
        loop {
            let ending = match answer {
                Answer::Offer(access) => {
                    made.push(self.make(access));
                    answer = self.station.confirm(made[made.len() - 1].number);
                    continue;
                }
                Answer::Done { value, accesses } => Ending::Done { value, accesses },
                Answer::Refused(refusal) => Ending::Refused(refusal),
                Answer::Contradicted { .. } => unreachable!("the board gives its fixed bits"),
            };
            return Work { made, ending };
        }
    }

    /// Makes an access on the board.
    pub fn make(&mut self, access: Access) -> Made {
        Made {
            access,
            register: self.board.register(access),
            number: self.board.perform(access),
        }
    }
}

/// Bits that the values shown are cut from: their digits are unlike from register to register.
const SHOWN: u32 = 0x5A3C_96E1;
const FORMER: u32 = 0xC69F_3B72;

/// The value whose write is shown.
pub fn shown(variable: Variable<'_>) -> i64 {
    match variable.width() {
        1 => cut(variable, u32::MAX),
        _ => cut(variable, SHOWN),
    }
}

/// The value that a variable has before.
pub fn former(variable: Variable<'_>) -> i64 {
    match variable.width() {
        1 => cut(variable, 0),
        _ => cut(variable, FORMER),
    }
}

/// The values whose write is shown: one from the middle, the least and the greatest.
pub fn all_shown(variable: Variable<'_>) -> Vec<i64> {
    let range = variable.range();
    let mut values = vec![shown(variable)];
    for end in [*range.start(), *range.end()] {
        if !values.contains(&end) {
            values.push(end);
        }
    }
    values
}

/// The value that the first bits of a number are, in a variable's type.
fn cut(variable: Variable<'_>, bits: u32) -> i64 {
    let width = variable.width();
    let value = i64::from(bits >> (32 - width));
    if value > *variable.range().end() {
        value - (1 << width)
    } else {
        value
    }
}
