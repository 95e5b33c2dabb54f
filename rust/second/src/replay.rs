//! Scripts of station calls, one call a line, and what each line answers.

use std::fmt;

use crate::description::{Description, Part};
use crate::frame;
use crate::load::{load, Verdict};
use crate::station::{
    abandon, begin_calibrated, begin_read, begin_write, confirm, confirm_calibrated, open, Answer,
    Operation, Tables,
};
use crate::tables::{lookup, tables};
use crate::units::Calibration;

/// One line of a script.
#[derive(Clone, Debug, PartialEq, Eq)]
pub enum Call {
    Open(Vec<u32>),
    Read(usize),
    /// A read in units; its confirmations are lent this calibration.
    Calibrated(usize, Calibration),
    Write(usize, i64),
    Confirm(u32),
    Abandon,
    Lookup(Vec<u8>),
    State,
    /// Lends only so many numbers of the record from now on; all of them without a count.
    LendRecord(Option<usize>),
    LendMarks(Option<usize>),
    Hold(Operation),
}

/// The call as a line of a script.
impl fmt::Display for Call {
    fn fmt(&self, f: &mut fmt::Formatter) -> fmt::Result {
        let lend = |f: &mut fmt::Formatter, what, count: &Option<usize>| match count {
            Some(count) => write!(f, "lend {what} {count}"),
            None => write!(f, "lend {what} all"),
        };
        match self {
            Call::Open(numbers) => {
                write!(f, "open")?;
                let mut each = numbers.iter();
                each.try_for_each(|number| write!(f, " 0x{number:02X}"))
            }
            Call::Read(variable) => write!(f, "read {variable}"),
            Call::Calibrated(variable, Calibration { gain, offset }) => {
                write!(f, "calibrated {variable} {gain:016X} {offset:016X}")
            }
            Call::Write(variable, value) => write!(f, "write {variable} {value}"),
            Call::Confirm(number) => write!(f, "confirm 0x{number:02X}"),
            Call::Abandon => write!(f, "abandon"),
            Call::Lookup(name) => write!(f, "lookup {}", String::from_utf8_lossy(name)),
            Call::State => write!(f, "state"),
            Call::LendRecord(count) => lend(f, "record", count),
            Call::LendMarks(count) => lend(f, "marks", count),
            Call::Hold(operation) => write!(f, "hold {}", Shown(*operation)),
        }
    }
}

/// An operation as scripts and `state` write it.
struct Shown(Operation);

impl fmt::Display for Shown {
    fn fmt(&self, f: &mut fmt::Formatter) -> fmt::Result {
        match self.0 {
            Operation::Idle => write!(f, "idle"),
            Operation::Reading {
                variable,
                step,
                gathered,
            } => write!(f, "read {variable} {step} {gathered}"),
            Operation::Writing {
                variable,
                step,
                value,
            } => write!(f, "write {variable} {step} {value}"),
        }
    }
}

/// Reads a line: `None` where it is no call, or a number does not fit its kind.
pub fn parse(line: &[u8]) -> Option<Call> {
    let fields: Vec<&[u8]> = fields(line).collect();
    Some(match fields[..] {
        [b"open", ref numbers @ ..] => Call::Open(
            numbers
                .iter()
                .map(|field| natural(field))
                .collect::<Option<_>>()?,
        ),
        [b"read", variable] => Call::Read(natural(variable)?),
        [b"calibrated", variable, gain, offset] => {
            let variable = natural(variable)?;
            let calibration = Calibration {
                gain: pattern(gain)?,
                offset: pattern(offset)?,
            };
            Call::Calibrated(variable, calibration)
        }
        [b"write", variable, z] => Call::Write(natural(variable)?, value(z)?),
        [b"confirm", number] => Call::Confirm(natural(number)?),
        [b"abandon"] => Call::Abandon,
        [b"lookup"] => Call::Lookup(Vec::new()),
        [b"lookup", name] => Call::Lookup(name.to_vec()),
        [b"state"] => Call::State,
        [b"lend", b"record", b"all"] => Call::LendRecord(None),
        [b"lend", b"record", count] => Call::LendRecord(Some(natural(count)?)),
        [b"lend", b"marks", b"all"] => Call::LendMarks(None),
        [b"lend", b"marks", count] => Call::LendMarks(Some(natural(count)?)),
        [b"hold", b"idle"] => Call::Hold(Operation::Idle),
        [b"hold", b"read", variable, step, gathered] => Call::Hold(Operation::Reading {
            variable: natural(variable)?,
            step: natural(step)?,
            gathered: natural(gathered)?,
        }),
        [b"hold", b"write", variable, step, value] => Call::Hold(Operation::Writing {
            variable: natural(variable)?,
            step: natural(step)?,
            value: natural(value)?,
        }),
        _ => return None,
    })
}

/// The fields of a line, split at spaces and tabs.
pub fn fields(line: &[u8]) -> impl Iterator<Item = &[u8]> {
    line.split(|b| matches!(b, b' ' | b'\t'))
        .filter(|field| !field.is_empty())
}

/// A number without a sign, decimal or `0x..`.
pub fn natural<T: TryFrom<i128>>(field: &[u8]) -> Option<T> {
    T::try_from(magnitude(field)?).ok()
}

/// A pattern of 64 bits: sixteen hexadecimal digits.
fn pattern(field: &[u8]) -> Option<u64> {
    if field.len() != 16 {
        return None;
    }
    field.iter().try_fold(0, |bits, &b| {
        Some(bits << 4 | u64::from((b as char).to_digit(16)?))
    })
}

/// A value: a number, perhaps behind a minus.
fn value(field: &[u8]) -> Option<i64> {
    match field {
        [b'-', digits @ ..] => i64::try_from(-magnitude(digits)?).ok(),
        digits => i64::try_from(magnitude(digits)?).ok(),
    }
}

fn magnitude(field: &[u8]) -> Option<i128> {
    let (radix, digits) = match field {
        [b'0', b'x', digits @ ..] => (16, digits),
        digits => (10, digits),
    };
    if digits.is_empty() {
        return None;
    }
    let mut value: i128 = 0;
    for &b in digits {
        let digit = (b as char).to_digit(radix)?;
        value = value
            .checked_mul(i128::from(radix))?
            .checked_add(i128::from(digit))?;
    }
    Some(value)
}

/// A loaded text with a station's state over its tables.
pub struct Session {
    text: Vec<u8>,
    parameters: Vec<u32>,
    registers: Vec<u32>,
    variables: Vec<u32>,
    widths: Widths,
    record: Vec<u32>,
    marks: Vec<u8>,
    operation: Operation,
    /// That of the read in hand, if it is one in units.
    calibration: Option<Calibration>,
    /// Before the first opening the station has no record and no marks.
    opened: bool,
    lent_record: Option<usize>,
    lent_marks: Option<usize>,
}

impl Session {
    /// Loads a text; a refused one is its verdict.
    pub fn new(text: &[u8]) -> Result<Session, Verdict> {
        let description = match load(text) {
            Verdict::Accepted { description } => description,
            refused => return Err(refused),
        };
        let (parameters, registers, variables) = tables(&description);
        Ok(Session {
            text: text.to_vec(),
            widths: Widths::of(&description),
            record: vec![0; description.registers.len()],
            marks: vec![0; description.variables.len()],
            parameters,
            registers,
            variables,
            operation: Operation::Idle,
            calibration: None,
            opened: false,
            lent_record: None,
            lent_marks: None,
        })
    }

    pub fn operation(&self) -> Operation {
        self.operation
    }

    pub fn marks(&self) -> &[u8] {
        &self.marks
    }

    pub fn perform(&mut self, call: &Call) -> String {
        match call {
            Call::Open(_)
            | Call::Read(_)
            | Call::Calibrated(..)
            | Call::Write(..)
            | Call::Confirm(_)
            | Call::Abandon => {
                let answer = self.station_call(call);
                self.widths.answer(answer)
            }
            Call::Lookup(name) => match lookup(&self.text, &self.variables, name) {
                Some(variable) => format!("variable {variable}"),
                None => "none".to_string(),
            },
            Call::State => self.state(),
            Call::LendRecord(count) => {
                self.lent_record = *count;
                "lent".to_string()
            }
            Call::LendMarks(count) => {
                self.lent_marks = *count;
                "lent".to_string()
            }
            Call::Hold(operation) => {
                self.operation = *operation;
                self.calibration = None;
                "held".to_string()
            }
        }
    }

    fn station_call(&mut self, call: &Call) -> Answer {
        let tables = Tables {
            parameters: &self.parameters,
            registers: &self.registers,
            variables: &self.variables,
        };
        let there = self.opened || matches!(call, Call::Open(_));
        let record = lend(&mut self.record, self.lent_record, there);
        let marks = lend(&mut self.marks, self.lent_marks, there);
        let operation = &mut self.operation;
        let answer = match call {
            Call::Open(numbers) => open(tables, numbers, record, marks, operation),
            Call::Read(variable) => begin_read(tables, record, marks, operation, *variable),
            Call::Calibrated(variable, calibration) => {
                begin_calibrated(tables, record, marks, operation, *variable, *calibration)
            }
            Call::Write(variable, value) => {
                begin_write(tables, record, marks, operation, *variable, *value)
            }
            Call::Confirm(number) => match self.calibration {
                None => confirm(tables, record, marks, operation, *number),
                Some(calibration) => {
                    confirm_calibrated(tables, record, marks, operation, *number, calibration)
                }
            },
            _ => abandon(tables, record, marks, operation),
        };
        self.opened |= answer == Answer::Opened;
        match (call, answer) {
            (Call::Calibrated(_, calibration), Answer::Offer(_)) => {
                self.calibration = Some(*calibration);
            }
            _ if self.operation == Operation::Idle => self.calibration = None,
            _ => {}
        }
        answer
    }

    /// What a line is answered with; nothing, if it is blank or a comment.
    fn answer(&mut self, line: &[u8]) -> Option<String> {
        let first = fields(line).next()?;
        if first.starts_with(b";") {
            return None;
        }
        Some(match parse(line) {
            Some(call) => self.perform(&call),
            None => "unknown".to_string(),
        })
    }

    /// `record N N .. marks M M .. operation ..`, with the whole record and all marks.
    fn state(&self) -> String {
        let mut line = "record".to_string();
        if self.opened {
            let record = self.record.iter().zip(&self.widths.registers);
            record.for_each(|(number, width)| line += &format!(" {}", hex(*number, *width)));
        }
        line += " marks";
        if self.opened {
            self.marks
                .iter()
                .for_each(|mark| line += &format!(" {mark}"));
        }
        line + &format!(" operation {}", Shown(self.operation))
    }
}

/// The widths that say how numbers are written.
struct Widths {
    parameters: Vec<u32>,
    registers: Vec<u32>,
}

impl Widths {
    fn of(description: &Description) -> Widths {
        let parameters = description.parameters.iter();
        let registers = description.registers.iter();
        Widths {
            parameters: parameters.map(|parameter| parameter.width).collect(),
            registers: registers.map(|register| register.width).collect(),
        }
    }

    /// The line of an answer. The register at a place has the width of the place's parameter.
    fn answer(&self, answer: Answer) -> String {
        match answer {
            Answer::Opened => "opened".to_string(),
            Answer::Offer(access) => {
                let direction = match access.direction {
                    Part::Read => "read",
                    Part::Write => "write",
                };
                let (parameter, offset) = (access.parameter, access.offset);
                let number = hex(access.number, self.parameters[parameter]);
                format!("offer {direction} {parameter} {offset} 0x{number}")
            }
            Answer::Done { value, accesses } => format!("done {value} {accesses}"),
            Answer::Measured { bits, accesses } => format!("done {bits:016X} {accesses}"),
            Answer::Abandoned => "abandoned".to_string(),
            Answer::Refused(number) => format!("refused {number}"),
            Answer::Contradicted { register } => format!("refused 52 {register}"),
            Answer::NotFinite => "refused 54".to_string(),
        }
    }
}

/// A number in 2, 4 or 8 digits, by the width of its register.
fn hex(number: u32, width: u32) -> String {
    format!("{number:0digits$X}", digits = width as usize / 4)
}

/// The first `count` of a buffer, or all; none before the first opening.
fn lend<T>(buffer: &mut [T], count: Option<usize>, there: bool) -> &mut [T] {
    let count = count.unwrap_or(buffer.len()).min(buffer.len());
    &mut buffer[..if there { count } else { 0 }]
}

/// Runs the scripts of an input, each a framed text and then calls over it; gives the lines that
/// they write. Calls are heard over an accepted text, so what stands behind a refused one, or
/// before the first, is passed over.
pub fn replay(input: &[u8]) -> Vec<String> {
    let mut written = Vec::new();
    let mut session = None;
    let mut at = 0;
    while at < input.len() {
        if let Ok((text, next)) = frame::read(input, at) {
            written.push(load(text).to_string());
            session = Session::new(text).ok();
            at = next;
            continue;
        }
        let line = input[at..].split(|b| *b == b'\n').next().unwrap_or(&[]);
        if let Some(session) = &mut session {
            written.extend(session.answer(line));
        }
        at += line.len() + 1;
    }
    written
}

#[cfg(test)]
mod tests {
    use super::*;

    #[test]
    fn numbers() {
        assert_eq!(natural::<u8>(b"255"), Some(255));
        assert_eq!(natural::<u8>(b"0xfF"), Some(255));
        assert_eq!(natural::<u8>(b"256"), None);
        assert_eq!(natural::<u8>(b"-0"), None);
        assert_eq!(natural::<u32>(b"4294967296"), None);
        assert_eq!(value(b"-0x10"), Some(-16));
        assert_eq!(value(b"-0"), Some(0));
        assert_eq!(value(b"-9223372036854775808"), Some(i64::MIN));
        assert_eq!(value(b"9223372036854775808"), None);
        for bad in [&b""[..], b"-", b"0x", b"+1", b"1a", b"0X1", b"--1", b"1.0"] {
            assert_eq!(value(bad), None);
        }
        assert_eq!(value("9".repeat(100).as_bytes()), None);
    }

    /// 2, 4 or 8 digits by the register's width, in offers and in the state.
    #[test]
    fn digits() {
        let text = b"device d(a:bit[8] port,b:bit[16] port,c:bit[32] port){register r=a:bit[8];\
            register s=b:bit[16];register t=c:bit[32];\
            variable v=r:int(8);variable w=s:int(16);variable x=t:int(32);}";
        let mut session = Session::new(text).unwrap();
        session.perform(&Call::Open(vec![0xABCD_EF01; 3]));
        assert_eq!(
            session.perform(&Call::State),
            "record 01 EF01 ABCDEF01 marks 0 0 0 operation idle"
        );
        for (variable, digits) in [(0, 2), (1, 4), (2, 8)] {
            for (call, digit) in [
                (Call::Read(variable), "0"),
                (Call::Write(variable, 10), "A"),
            ] {
                let answer = session.perform(&call);
                let number = format!("0x{}{digit}", "0".repeat(digits - 1));
                let (offer, offered) = answer.rsplit_once(' ').unwrap();
                assert!(offer.starts_with("offer") && offered == number, "{answer}");
                session.perform(&Call::Abandon);
            }
            session.perform(&Call::Write(variable, 0));
            session.perform(&Call::Confirm(0));
        }
    }

    #[test]
    fn every_call_is_its_line() {
        for call in [
            Call::Open(vec![0, 0xA5, 0x1_0000, u32::MAX]),
            Call::Open(vec![]),
            Call::Read(3),
            Call::Calibrated(
                3,
                Calibration {
                    gain: 0x0123_4567_89AB_CDEF,
                    offset: u64::MAX,
                },
            ),
            Call::Write(2, -7),
            Call::Confirm(255),
            Call::Confirm(u32::MAX),
            Call::Abandon,
            Call::Lookup(b"v".to_vec()),
            Call::State,
            Call::LendRecord(None),
            Call::LendRecord(Some(4)),
            Call::LendMarks(None),
            Call::LendMarks(Some(0)),
            Call::Hold(Operation::Idle),
            Call::Hold(Operation::Reading {
                variable: 1,
                step: 2,
                gathered: 3,
            }),
            Call::Hold(Operation::Writing {
                variable: 1,
                step: 2,
                value: u32::MAX,
            }),
        ] {
            assert_eq!(parse(call.to_string().as_bytes()), Some(call));
        }
    }

    #[test]
    fn no_call() {
        for line in [
            "opens",
            "open 4294967296",
            "open -1",
            "read",
            "read 1 2",
            "read x",
            "read -1",
            "write 1",
            "calibrated 0 3FF0000000000000",
            "calibrated 3FF0000000000000 3FF0000000000000",
            "calibrated x 3FF0000000000000 3FF0000000000000",
            "calibrated 0 3FF000000000000 3FF0000000000000",
            "calibrated 0 3FF0000000000000 03FF0000000000000",
            "calibrated 0 0x3FF00000000000 0000000000000000",
            "calibrated 0 3FF000000000000G 0000000000000000",
            "calibrated 0 3FF0000000000000 0000000000000000 0",
            "confirm",
            "confirm 4294967296",
            "abandon 1",
            "lookup a b",
            "state 1",
            "lend",
            "lend record",
            "lend record -1",
            "lend tables 3",
            "hold",
            "hold read 1 2",
            "hold write 0 0 -1",
            "hold write 0 0 4294967296",
            "OPEN",
        ] {
            assert_eq!(parse(line.as_bytes()), None, "{line}");
        }
    }
}
