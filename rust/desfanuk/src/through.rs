//! Whole reads and writes, through whatever performs the accesses.

use std::error::Error;
use std::fmt;

use crate::{Access, Answer, Calibration, InUnits, Number, Refusal, Station, Variable};

/// What performs accesses: the station's own way to its ports.
pub trait Ports {
    /// Why an access was not performed, or was perhaps not performed, as after a time-out.
    type Failure;

    /// Performs an access, once. Gives the number that was read; for a write any number does.
    fn perform(&mut self, access: Access) -> Result<Number, Self::Failure>;
}

/// A read or write that is done.
#[derive(Clone, Copy, Debug, PartialEq, Eq)]
pub struct Done {
    /// The value read or written.
    pub value: i64,
    /// How many accesses it took.
    pub accesses: usize,
}

/// A read in units that is done.
#[derive(Clone, Copy, Debug, PartialEq)]
pub struct Reading {
    /// The reading in units.
    pub value: f64,
    /// How many accesses it took.
    pub accesses: usize,
}

/// A value that its variable's type does not have, and the least and the greatest that it has.
#[derive(Clone, Copy, Debug, PartialEq, Eq)]
pub struct Outside {
    /// [`Refusal::TooLow`] or [`Refusal::TooHigh`].
    pub refusal: Refusal,
    pub value: i64,
    pub least: i64,
    pub greatest: i64,
}

impl fmt::Display for Outside {
    fn fmt(&self, f: &mut fmt::Formatter<'_>) -> fmt::Result {
        let Outside {
            refusal,
            value,
            least,
            greatest,
        } = self;
        let which = match refusal {
            Refusal::TooLow => "too low",
            _ => "too high",
        };
        let number = refusal.number();
        write!(
            f,
            "refused ({number}): {value} is {which}: the least is {least}, the greatest {greatest}"
        )
    }
}

impl Error for Outside {}

/// A number that was read and contradicts its register, and the bits of it that do.
#[derive(Clone, Debug, PartialEq, Eq)]
pub struct Contradiction {
    /// The register's index.
    pub register: usize,
    /// Its name in the text.
    pub name: String,
    /// How many bits the register has.
    pub width: usize,
    /// What was read, without bits above the width.
    pub number: Number,
    /// The bits at which the number is not what the register's read mask has fixed.
    pub bits: Number,
}

impl fmt::Display for Contradiction {
    fn fmt(&self, f: &mut fmt::Formatter<'_>) -> fmt::Result {
        let Contradiction {
            name,
            width,
            number,
            bits,
            ..
        } = self;
        let refusal = Refusal::Contradicted.number();
        let digits = width / 4;
        write!(f, "refused ({refusal}): {name} gave 0x{number:0digits$X}")?;
        let mut link = ": bit";
        for bit in (0..*width).rev().filter(|bit| bits >> bit & 1 == 1) {
            let fixed = 1 - (number >> bit & 1);
            write!(f, "{link} {bit} is fixed at {fixed}")?;
            link = ", bit";
        }
        Ok(())
    }
}

impl Error for Contradiction {}

/// Why a read or write is not done.
#[derive(Clone, Debug, PartialEq, Eq)]
pub enum Stopped<F> {
    /// It was refused, and no access was performed; but by 54, in units, after the last of them.
    Refused(Refusal),
    /// The value to be written is too low (27) or too high (55), and no access was performed.
    Outside(Outside),
    /// A number that was read contradicts its register (52), as from a dead cable: the read is over.
    Contradicted(Contradiction),
    /// An access failed, and the operation was abandoned: a write leaves its variable half-written.
    Failed(F),
}

impl<F: fmt::Display> fmt::Display for Stopped<F> {
    fn fmt(&self, f: &mut fmt::Formatter<'_>) -> fmt::Result {
        match self {
            Stopped::Refused(refusal) => refusal.fmt(f),
            Stopped::Outside(outside) => outside.fmt(f),
            Stopped::Contradicted(contradiction) => contradiction.fmt(f),
            Stopped::Failed(failure) => write!(f, "abandoned: {failure}"),
        }
    }
}

impl<F: fmt::Debug + fmt::Display> Error for Stopped<F> {}

impl<'d> Station<'d> {
    /// Reads a variable, access by access.
    pub fn read<P: Ports>(
        &mut self,
        variable: Variable<'d>,
        ports: &mut P,
    ) -> Result<Done, Stopped<P::Failure>> {
        let begun = self.begin_read(variable);
        self.carry_out(begun, ports)
    }

    /// Reads a variable in units, access by access.
    ///
    /// ```
    /// use desfanuk::{Access, Calibration, Description, Number, Ports, Reading, Station};
    ///
    /// /// A lamp whose light is 298 steps.
    /// struct Lamp;
    ///
    /// impl Ports for Lamp {
    ///     type Failure = std::convert::Infallible;
    ///
    ///     fn perform(&mut self, access: Access) -> Result<Number, Self::Failure> {
    ///         Ok(if access.offset == 1 { 0x12 } else { 0xA0 })
    ///     }
    /// }
    ///
    /// let lamp = Description::load(include_str!("../../../boards/lamp.devil")).expect("a description");
    /// let reading = lamp.with(|lamp| {
    ///     let light = lamp.variable("light").expect("it has a light");
    ///     let mut station = Station::open(lamp, &[0; 3]).expect("a number for each register");
    ///     let lux = Calibration { gain: 0.5, offset: 1024.0 };
    ///     station.read_in_units(light, lux, &mut Lamp)
    /// });
    /// assert_eq!(reading, Ok(Reading { value: 1173.0, accesses: 2 }));
    /// ```
    pub fn read_in_units<P: Ports>(
        &mut self,
        variable: Variable<'d>,
        calibration: Calibration,
        ports: &mut P,
    ) -> Result<Reading, Stopped<P::Failure>> {
        let mut access = match self.begin_read_in_units(variable, calibration) {
            Answer::Offer(access) => access,
            Answer::Refused(refusal) => return Err(Stopped::Refused(refusal)),
            answer => unreachable!("a begin offers or refuses, and gave {answer:?}"),
        };
        loop {
            let number = self.perform(access, ports)?;
            access = match self.confirm_in_units(number, calibration) {
                InUnits::Offer(next) => next,
                InUnits::Done { value, accesses } => return Ok(Reading { value, accesses }),
                InUnits::NotFinite => return Err(Stopped::Refused(Refusal::NotFinite)),
                InUnits::Refused(refusal) => return Err(Stopped::Refused(refusal)),
                InUnits::Contradicted { register } => {
                    return Err(Stopped::Contradicted(self.contradiction(register, number)))
                }
                answer @ InUnits::Written { .. } => {
                    unreachable!("a read is in hand, and gave {answer:?}")
                }
            };
        }
    }

    /// Writes a variable, access by access.
    pub fn write<P: Ports>(
        &mut self,
        variable: Variable<'d>,
        value: i64,
        ports: &mut P,
    ) -> Result<Done, Stopped<P::Failure>> {
        let begun = self.begin_write(variable, value);
        if let Answer::Refused(refusal @ (Refusal::TooLow | Refusal::TooHigh)) = begun {
            let range = variable.range();
            return Err(Stopped::Outside(Outside {
                refusal,
                value,
                least: *range.start(),
                greatest: *range.end(),
            }));
        }
        self.carry_out(begun, ports)
    }

    fn carry_out<P: Ports>(
        &mut self,
        begun: Answer,
        ports: &mut P,
    ) -> Result<Done, Stopped<P::Failure>> {
        let mut answer = begun;
        let mut number = 0;
        loop {
            answer = match answer {
                Answer::Offer(access) => {
                    number = self.perform(access, ports)?;
                    self.confirm(number)
                }
                Answer::Done { value, accesses } => return Ok(Done { value, accesses }),
                Answer::Refused(refusal) => return Err(Stopped::Refused(refusal)),
                Answer::Contradicted { register } => {
                    return Err(Stopped::Contradicted(self.contradiction(register, number)))
                }
            };
        }
    }

    /// Performs an access, or abandons the operation where that fails.
    fn perform<P: Ports>(
        &mut self,
        access: Access,
        ports: &mut P,
    ) -> Result<Number, Stopped<P::Failure>> {
        ports.perform(access).map_err(|failure| {
            self.abandon().expect("an operation is in hand");
            Stopped::Failed(failure)
        })
    }

    fn contradiction(&self, register: usize, number: Number) -> Contradiction {
        let description = self.description();
        let name = description.register_name(register).expect("a register");
        let width = description.register_width(register).expect("a register");
        Contradiction {
            register,
            name: name.to_string(),
            width,
            number: number & Number::MAX >> (Number::BITS as usize - width),
            bits: description
                .contradicting(register, number)
                .expect("it is read"),
        }
    }
}
