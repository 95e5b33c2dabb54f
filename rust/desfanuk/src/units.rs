//! Readings in units: a calibration turns what a variable reads into lux, volts or degrees.

use crate::raw::{self, ANSWER_WORDS};
use crate::station::{answered, Access, Answer, Number, Station};
use crate::{Refusal, Variable};

/// How a reading becomes one in units: the reading, taken exactly, times the gain, rounded once, plus
/// the offset, rounded once.
#[derive(Clone, Copy, Debug, PartialEq)]
pub struct Calibration {
    pub gain: f64,
    pub offset: f64,
}

/// What a confirmation in units answers.
#[derive(Clone, Copy, Debug, PartialEq)]
#[must_use = "an operation goes on until it is done or abandoned"]
pub enum InUnits {
    /// This access is to be performed next, and then confirmed.
    Offer(Access),
    /// The read is over: its reading in units, and the number of its accesses.
    Done { value: f64, accesses: usize },
    /// The read is over, but its product or its sum is not finite: refused by 54
    /// ([`Refusal::NotFinite`]).
    NotFinite,
    /// Nothing changed, and nothing is offered.
    Refused(Refusal),
    /// As [`Answer::Contradicted`]: the read is over.
    Contradicted { register: usize },
    /// A write was in hand, and is done: a write brings no reading.
    Written { value: i64, accesses: usize },
}

impl<'d> Station<'d> {
    /// Begins the read of a variable in units. A gain or an offset that is not finite, and a `bool`,
    /// are refused by 53 ([`Refusal::NoUnits`]) before any access is offered.
    pub fn begin_read_in_units(
        &mut self,
        variable: Variable<'d>,
        calibration: Calibration,
    ) -> Answer {
        let mut answer = [0; ANSWER_WORDS];
        raw::begin_read_in_units(
            self.description.tables().words(),
            &self.record,
            &self.marks,
            &mut self.operation,
            variable.index(),
            calibration.gain.to_bits(),
            calibration.offset.to_bits(),
            &mut answer,
        );
        answered(answer)
    }

    /// Confirms an access as [`Station::confirm`] does, but a read that is done gives its reading in
    /// units. The calibration is that of the begin; where another is lent, it is the one that counts.
    pub fn confirm_in_units(&mut self, number: Number, calibration: Calibration) -> InUnits {
        let mut answer = [0; ANSWER_WORDS];
        raw::confirm_in_units(
            self.description.tables().words(),
            &mut self.record,
            &mut self.marks,
            &mut self.operation,
            number,
            calibration.gain.to_bits(),
            calibration.offset.to_bits(),
            &mut answer,
        );
        in_units(answer)
    }
}

/// The answer that words tell.
fn in_units(words: [i64; ANSWER_WORDS]) -> InUnits {
    let half = |word: i64| u64::from(u32::try_from(word).expect("half of a double"));
    match words {
        [5, 54, 0, 0, 0] => InUnits::NotFinite,
        [6, high, low, accesses, 0] => InUnits::Done {
            value: f64::from_bits(half(high) << 32 | half(low)),
            accesses: usize::try_from(accesses).expect("a number of accesses"),
        },
        _ => match answered(words) {
            Answer::Offer(access) => InUnits::Offer(access),
            Answer::Done { value, accesses } => InUnits::Written { value, accesses },
            Answer::Refused(refusal) => InUnits::Refused(refusal),
            Answer::Contradicted { register } => InUnits::Contradicted { register },
        },
    }
}
