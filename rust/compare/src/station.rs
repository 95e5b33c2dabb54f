//! The station that crate `desfanuk` gives to station software, with the second implementation's
//! answers.

use desfanuk::{Described, Direction, Refusal, Variable};
use second::board::Calls;
use second::{Access, Answer, Part};

/// A station that is not open before the first opening.
pub struct Station<'d> {
    description: Described<'d>,
    opened: Option<desfanuk::Station<'d>>,
}

impl<'d> Station<'d> {
    pub fn new(description: Described<'d>) -> Station<'d> {
        Station {
            description,
            opened: None,
        }
    }

    fn station(&mut self) -> &mut desfanuk::Station<'d> {
        self.opened.as_mut().expect("an opening comes first")
    }

    fn variable(&self, index: usize) -> Variable<'d> {
        self.description.variable_at(index).expect("a variable")
    }
}

fn refused(refusal: Refusal) -> Answer {
    Answer::Refused(refusal.number())
}

fn answered(answer: desfanuk::Answer) -> Answer {
    match answer {
        desfanuk::Answer::Offer(access) => Answer::Offer(Access {
            direction: match access.direction {
                Direction::Read => Part::Read,
                Direction::Write => Part::Write,
            },
            parameter: access.parameter,
            offset: u32::from(access.offset),
            number: access.number,
        }),
        desfanuk::Answer::Done { value, accesses } => Answer::Done { value, accesses },
        desfanuk::Answer::Refused(refusal) => refused(refusal),
        desfanuk::Answer::Contradicted { register } => Answer::Contradicted { register },
    }
}

impl Calls for Station<'_> {
    fn open(&mut self, power: &[u32]) -> Answer {
        let opened = match &mut self.opened {
            Some(station) => station.open_again(power),
            None => desfanuk::Station::open(self.description, power)
                .map(|station| self.opened = Some(station)),
        };
        opened.map_or_else(refused, |()| Answer::Opened)
    }

    fn begin_read(&mut self, variable: usize) -> Answer {
        let variable = self.variable(variable);
        answered(self.station().begin_read(variable))
    }

    fn begin_write(&mut self, variable: usize, value: i64) -> Answer {
        let variable = self.variable(variable);
        answered(self.station().begin_write(variable, value))
    }

    fn confirm(&mut self, number: u32) -> Answer {
        answered(self.station().confirm(number))
    }

    fn abandon(&mut self) -> Answer {
        let abandoned = self.station().abandon();
        abandoned.map_or_else(refused, |()| Answer::Abandoned)
    }
}
