//! The station: reading and writing a variable, one access at a time.
//!
//! All state is the caller's: the record (for each register the last number confirmed as written),
//! the marks (one for each variable, 0 is clean), and the operation in hand. Every call takes any
//! tables, tests its refusals from 20 up, and leaves everything unchanged when it refuses; only
//! refusals 52 and 54 end the operation in hand. In every number lent for a register, bits above its
//! width count as 0.

use crate::description::{Bits, Description, Kind, Part, Port, Variable};
use crate::sound::sound;
use crate::tables::describe;
use crate::units::Calibration;

/// The three lent tables.
#[derive(Clone, Copy, Debug)]
pub struct Tables<'a> {
    pub parameters: &'a [u32],
    pub registers: &'a [u32],
    pub variables: &'a [u32],
}

/// The operation in hand. `step` counts its confirmations; `gathered` and `value` are bit patterns
/// of the variable's width, the bits of registers not yet read being 0.
#[derive(Clone, Copy, Debug, Default, PartialEq, Eq)]
pub enum Operation {
    #[default]
    Idle,
    Reading {
        variable: usize,
        step: usize,
        gathered: u32,
    },
    Writing {
        variable: usize,
        step: usize,
        value: u32,
    },
}

#[derive(Clone, Copy, Debug, PartialEq, Eq)]
pub struct Access {
    pub direction: Part,
    pub parameter: usize,
    pub offset: u32,
    /// What is written; 0 when reading.
    pub number: u32,
}

#[derive(Clone, Copy, Debug, PartialEq, Eq)]
pub enum Answer {
    Opened,
    Offer(Access),
    Done {
        value: i64,
        accesses: usize,
    },
    /// A calibrated read is done: the pattern of its result in units.
    Measured {
        bits: u64,
        accesses: usize,
    },
    Abandoned,
    Refused(u8),
    /// Refusal 52: the number read contradicts the fixed bits of this register, and the operation has ended.
    Contradicted {
        register: usize,
    },
    /// Refusal 54, in place of done: product or sum is not finite, and the operation has ended.
    NotFinite,
}

type Answered = Result<Answer, u8>;

/// Opens a station: the record takes the power-on numbers, all marks are cleared, and no operation
/// is in hand.
pub fn open(
    tables: Tables,
    power_on: &[u32],
    record: &mut [u32],
    marks: &mut [u8],
    operation: &mut Operation,
) -> Answer {
    answer((|| {
        let description = described(tables)?;
        if power_on.len() < description.registers.len() {
            return Err(21);
        }
        long_enough(&description, record, marks)?;
        for (index, register) in description.registers.iter().enumerate() {
            record[index] = register.cut(power_on[index]);
        }
        marks[..description.variables.len()].fill(0);
        *operation = Operation::Idle;
        Ok(Answer::Opened)
    })())
}

/// Begins to read a variable: offers its first access.
pub fn begin_read(
    tables: Tables,
    record: &[u32],
    marks: &[u8],
    operation: &mut Operation,
    variable: usize,
) -> Answer {
    answer(begin_reading(
        tables, record, marks, operation, variable, None,
    ))
}

/// Begins to read a variable in units: offers its first access. The operation in hand is that of a plain read, and the
/// calibration is lent again at each of its confirmations.
pub fn begin_calibrated(
    tables: Tables,
    record: &[u32],
    marks: &[u8],
    operation: &mut Operation,
    variable: usize,
    calibration: Calibration,
) -> Answer {
    answer(begin_reading(
        tables,
        record,
        marks,
        operation,
        variable,
        Some(calibration),
    ))
}

fn begin_reading(
    tables: Tables,
    record: &[u32],
    marks: &[u8],
    operation: &mut Operation,
    variable: usize,
    calibration: Option<Calibration>,
) -> Answered {
    let description = described(tables)?;
    long_enough(&description, record, marks)?;
    none_in_hand(&description, operation)?;
    let wanted = description.variables.get(variable).ok_or(25)?;
    let bits = wanted.read.as_ref().ok_or(26)?;
    if marks[variable] != 0 {
        return Err(28);
    }
    fits_units(wanted, calibration)?;
    *operation = Operation::Reading {
        variable,
        step: 0,
        gathered: 0,
    };
    Ok(Answer::Offer(read_access(&description, bits, 0)))
}

/// Begins to write a variable: offers its first access.
pub fn begin_write(
    tables: Tables,
    record: &[u32],
    marks: &[u8],
    operation: &mut Operation,
    variable: usize,
    value: i64,
) -> Answer {
    answer((|| {
        let description = described(tables)?;
        long_enough(&description, record, marks)?;
        none_in_hand(&description, operation)?;
        let wanted = description.variables.get(variable).ok_or(25)?;
        let bits = wanted.write.as_ref().ok_or(26)?;
        let value = pattern(wanted, value)?;
        *operation = Operation::Writing {
            variable,
            step: 0,
            value,
        };
        Ok(Answer::Offer(write_access(
            &description,
            bits,
            0,
            value,
            record,
        )))
    })())
}

/// Confirms the access on offer, with the number read; for a write the number is ignored. One that is
/// read and has not the fixed bits of its register ends the operation as if it were abandoned.
pub fn confirm(
    tables: Tables,
    record: &mut [u32],
    marks: &mut [u8],
    operation: &mut Operation,
    number: u32,
) -> Answer {
    answer(confirmed(tables, record, marks, operation, number, None))
}

/// Confirms the access on offer like `confirm`; a read that is done answers in units. A calibration, or a type, that a
/// begin would refuse is 53 here too.
pub fn confirm_calibrated(
    tables: Tables,
    record: &mut [u32],
    marks: &mut [u8],
    operation: &mut Operation,
    number: u32,
    calibration: Calibration,
) -> Answer {
    answer(confirmed(
        tables,
        record,
        marks,
        operation,
        number,
        Some(calibration),
    ))
}

fn confirmed(
    tables: Tables,
    record: &mut [u32],
    marks: &mut [u8],
    operation: &mut Operation,
    number: u32,
    calibration: Option<Calibration>,
) -> Answered {
    let description = described(tables)?;
    long_enough(&description, record, marks)?;
    match in_hand(&description, operation)? {
        InHand::Nothing => Err(24),
        InHand::Read(reading) => {
            confirm_read(&description, reading, operation, number, calibration)
        }
        InHand::Write(writing) => {
            fits_units(&description.variables[writing.variable], calibration)?;
            Ok(confirm_write(
                &description,
                writing,
                record,
                marks,
                operation,
            ))
        }
    }
}

/// Refusal 52 comes before 53: it is the lower one.
fn confirm_read(
    description: &Description,
    reading: Reading,
    operation: &mut Operation,
    number: u32,
    calibration: Option<Calibration>,
) -> Answered {
    let Reading {
        variable,
        bits,
        step,
        gathered,
    } = reading;
    let register = plan(bits)[step];
    let number = description.registers[register].cut(number);
    if !read_port(description, register).mask.fits(number) {
        *operation = Operation::Idle;
        return Ok(Answer::Contradicted { register });
    }
    let wanted = &description.variables[variable];
    fits_units(wanted, calibration)?;
    let gathered = gathered | gather(bits, register, number);
    let accesses = step + 1;
    if accesses < plan(bits).len() {
        *operation = Operation::Reading {
            variable,
            step: accesses,
            gathered,
        };
        return Ok(Answer::Offer(read_access(description, bits, accesses)));
    }
    *operation = Operation::Idle;
    let value = value_of(wanted, gathered);
    let Some(calibration) = calibration else {
        return Ok(Answer::Done { value, accesses });
    };
    Ok(match calibration.apply(value) {
        Some(bits) => Answer::Measured { bits, accesses },
        None => Answer::NotFinite,
    })
}

fn confirm_write(
    description: &Description,
    writing: Writing,
    record: &mut [u32],
    marks: &mut [u8],
    operation: &mut Operation,
) -> Answer {
    let Writing {
        variable,
        bits,
        step,
        value,
    } = writing;
    let access = write_access(description, bits, step, value, record);
    record[plan(bits)[step]] = access.number;
    let step = step + 1;
    if step < plan(bits).len() {
        *operation = Operation::Writing {
            variable,
            step,
            value,
        };
        let access = write_access(description, bits, step, value, record);
        return Answer::Offer(access);
    }
    marks[variable] = 0;
    *operation = Operation::Idle;
    Answer::Done {
        value: value_of(&description.variables[variable], value),
        accesses: step,
    }
}

/// Abandons the operation in hand. A write marks its variable half-written.
pub fn abandon(
    tables: Tables,
    record: &[u32],
    marks: &mut [u8],
    operation: &mut Operation,
) -> Answer {
    answer((|| {
        let description = described(tables)?;
        long_enough(&description, record, marks)?;
        match in_hand(&description, operation)? {
            InHand::Nothing => return Err(24),
            InHand::Read(_) => {}
            InHand::Write(writing) => marks[writing.variable] = 1,
        }
        *operation = Operation::Idle;
        Ok(Answer::Abandoned)
    })())
}

fn answer(answered: Answered) -> Answer {
    answered.unwrap_or_else(Answer::Refused)
}

/// Refusal 20.
fn described(tables: Tables) -> Result<Description, u8> {
    let Tables {
        parameters,
        registers,
        variables,
    } = tables;
    if !sound(parameters, registers, variables) {
        return Err(20);
    }
    describe(parameters, registers, variables).ok_or(20)
}

/// Refusal 21, of the record and of the marks.
fn long_enough(description: &Description, record: &[u32], marks: &[u8]) -> Result<(), u8> {
    if record.len() < description.registers.len() || marks.len() < description.variables.len() {
        return Err(21);
    }
    Ok(())
}

/// The operation in hand, looked up in the tables.
enum InHand<'d> {
    Nothing,
    Read(Reading<'d>),
    Write(Writing<'d>),
}

struct Reading<'d> {
    variable: usize,
    bits: &'d Bits,
    step: usize,
    gathered: u32,
}

struct Writing<'d> {
    variable: usize,
    bits: &'d Bits,
    step: usize,
    value: u32,
}

/// Refusal 22: the tables have this variable and part, the step is one of its accesses, and the
/// pattern fits; in a read no bit of a register yet to be read is set.
fn in_hand<'d>(description: &'d Description, operation: &Operation) -> Result<InHand<'d>, u8> {
    match *operation {
        Operation::Idle => Ok(InHand::Nothing),
        Operation::Reading {
            variable,
            step,
            gathered,
        } => {
            let wanted = description.variables.get(variable).ok_or(22)?;
            let bits = wanted.read.as_ref().ok_or(22)?;
            let registers = plan(bits);
            if step >= registers.len() {
                return Err(22);
            }
            let possible = registers[..step].iter().fold(0, |bits_read, &register| {
                bits_read | gather(bits, register, u32::MAX)
            });
            if gathered & !possible != 0 {
                return Err(22);
            }
            Ok(InHand::Read(Reading {
                variable,
                bits,
                step,
                gathered,
            }))
        }
        Operation::Writing {
            variable,
            step,
            value,
        } => {
            let wanted = description.variables.get(variable).ok_or(22)?;
            let bits = wanted.write.as_ref().ok_or(22)?;
            if step >= plan(bits).len() || u64::from(value) >= 1 << wanted.width {
                return Err(22);
            }
            Ok(InHand::Write(Writing {
                variable,
                bits,
                step,
                value,
            }))
        }
    }
}

/// Refusals 22 and 23.
fn none_in_hand(description: &Description, operation: &Operation) -> Result<(), u8> {
    match in_hand(description, operation)? {
        InHand::Nothing => Ok(()),
        _ => Err(23),
    }
}

/// The registers of a part in order of first mention, each once.
pub(crate) fn plan(bits: &Bits) -> Vec<usize> {
    let mut registers = Vec::new();
    for piece in &bits.pieces {
        if !registers.contains(&piece.register) {
            registers.push(piece.register);
        }
    }
    registers
}

/// Where each bit of a part lives, as (register, bit), by its weight in the value.
fn places(bits: &Bits) -> Vec<(usize, u32)> {
    let mut places = Vec::new();
    for piece in bits.pieces.iter().rev() {
        for bit in piece.low..=piece.high {
            places.push((piece.register, bit));
        }
    }
    places
}

/// The bits of the value that a register's number gives.
fn gather(bits: &Bits, register: usize, number: u32) -> u32 {
    let mut gathered = 0;
    for (weight, (from, bit)) in places(bits).into_iter().enumerate() {
        if from == register {
            gathered |= (number >> bit & 1) << weight;
        }
    }
    gathered
}

/// The number for a register: the variable's bits from the value, other dot bits from the record, `0`
/// and `1` from the mask, `*` as 0.
fn number_to_write(bits: &Bits, register: usize, port: &Port, value: u32, recorded: u32) -> u32 {
    let mut number = recorded & port.mask.dots | port.mask.ones;
    for (weight, (to, bit)) in places(bits).into_iter().enumerate() {
        if to == register {
            number &= !(1 << bit);
            number |= (value >> weight & 1) << bit;
        }
    }
    number
}

/// Refusal 53, where an answer is to be in units: gain and offset are finite, and the type is numeric.
fn fits_units(variable: &Variable, calibration: Option<Calibration>) -> Result<(), u8> {
    match calibration {
        Some(units) if !units.is_finite() || variable.kind == Kind::Bool => Err(53),
        _ => Ok(()),
    }
}

fn read_port(description: &Description, register: usize) -> Port {
    description.registers[register].read.expect("sound tables")
}

fn read_access(description: &Description, bits: &Bits, step: usize) -> Access {
    let port = read_port(description, plan(bits)[step]);
    Access {
        direction: Part::Read,
        parameter: port.parameter,
        offset: port.offset,
        number: 0,
    }
}

fn write_access(
    description: &Description,
    bits: &Bits,
    step: usize,
    value: u32,
    record: &[u32],
) -> Access {
    let register = plan(bits)[step];
    let recorded = description.registers[register].cut(record[register]);
    let port = description.registers[register].write.expect("sound tables");
    Access {
        direction: Part::Write,
        parameter: port.parameter,
        offset: port.offset,
        number: number_to_write(bits, register, &port, value, recorded),
    }
}

/// The bit pattern of a value of the variable's type. A value below the type's least is refusal 27,
/// one above its greatest refusal 55.
fn pattern(variable: &Variable, value: i64) -> Result<u32, u8> {
    let (least, greatest) = variable.bounds();
    if value < least {
        return Err(27);
    }
    if value > greatest {
        return Err(55);
    }
    Ok(value.rem_euclid(1 << variable.width) as u32)
}

/// The value of a bit pattern, two's complement where the type is signed.
fn value_of(variable: &Variable, pattern: u32) -> i64 {
    let size = 1i64 << variable.width;
    let value = i64::from(pattern);
    if variable.kind == Kind::Signed && value >= size / 2 {
        value - size
    } else {
        value
    }
}

#[cfg(test)]
mod tests {
    use super::*;
    use crate::description::WIDTHS;
    use crate::load::{load, Verdict};
    use crate::tables::tables;

    const TEXT: &[u8] =
        b"device d(b:bit[8] port@{0..1}){register r=b:bit[8];register s=b@1:bit[8];\
        variable v=r#s:int(16);}";

    fn words() -> [Vec<u32>; 3] {
        match load(TEXT) {
            Verdict::Accepted { description } => tables(&description).into(),
            refused => panic!("{refused}"),
        }
    }

    fn lent([parameters, registers, variables]: &[Vec<u32>; 3]) -> Tables<'_> {
        Tables {
            parameters,
            registers,
            variables,
        }
    }

    /// All five calls over one state; each answer, with whether the state is as before.
    fn all_calls(
        tables: Tables,
        record: &[u32],
        marks: &[u8],
        held: Operation,
    ) -> Vec<(Answer, bool)> {
        let mut answers = Vec::new();
        for call in 0..5 {
            let (mut r, mut m, mut o) = (record.to_vec(), marks.to_vec(), held);
            let answer = match call {
                0 => open(tables, &[1, 2], &mut r, &mut m, &mut o),
                1 => begin_read(tables, &r, &m, &mut o, 0),
                2 => begin_write(tables, &r, &m, &mut o, 0, 5),
                3 => confirm(tables, &mut r, &mut m, &mut o, 0),
                _ => abandon(tables, &r, &mut m, &mut o),
            };
            answers.push((answer, r == record && m == marks && o == held));
        }
        answers
    }

    #[test]
    fn unsound_tables_come_first() {
        let bad = Operation::Reading {
            variable: 9,
            step: 9,
            gathered: 9,
        };
        for (table, word, value) in [(0, 0, 0), (1, 0, 0), (1, 4, 2), (2, 4, 15), (2, 7552, 1)] {
            let mut words = words();
            words[table][word] = value;
            for (record, marks) in [(&[7, 7][..], &[0][..]), (&[], &[])] {
                for held in [Operation::Idle, bad] {
                    for answer in all_calls(lent(&words), record, marks, held) {
                        assert_eq!(answer, (Answer::Refused(20), true));
                    }
                }
            }
        }
        let short = Tables {
            parameters: &[],
            registers: &[],
            variables: &[],
        };
        for answer in all_calls(short, &[], &[], Operation::Idle) {
            assert_eq!(answer, (Answer::Refused(20), true));
        }
    }

    #[test]
    fn short_buffers_come_next() {
        let words = words();
        let bad = Operation::Writing {
            variable: 0,
            step: 2,
            value: 0,
        };
        for (record, marks) in [(&[7][..], &[0][..]), (&[7, 7], &[]), (&[], &[])] {
            for answer in all_calls(lent(&words), record, marks, bad) {
                assert_eq!(answer, (Answer::Refused(21), true));
            }
        }
        let answers = all_calls(lent(&words), &[7, 7], &[0], bad);
        assert_eq!(answers[0], (Answer::Opened, false));
        for answer in &answers[1..] {
            assert_eq!(*answer, (Answer::Refused(22), true));
        }
    }

    /// Bytes past what the tables need are left alone.
    #[test]
    fn longer_buffers() {
        let words = words();
        let (mut record, mut marks) = (vec![9; 5], vec![9; 4]);
        let mut operation = Operation::Idle;
        let tables = lent(&words);
        let opened = open(
            tables,
            &[1, 2, 3, 4],
            &mut record,
            &mut marks,
            &mut operation,
        );
        assert_eq!(opened, Answer::Opened);
        assert_eq!(
            (&record[..], &marks[..]),
            (&[1, 2, 9, 9, 9][..], &[0, 9, 9, 9][..])
        );
        begin_write(tables, &record, &marks, &mut operation, 0, 0x1234);
        confirm(tables, &mut record, &mut marks, &mut operation, 0);
        abandon(tables, &record, &mut marks, &mut operation);
        assert_eq!(
            (&record[..], &marks[..]),
            (&[0x12, 2, 9, 9, 9][..], &[1, 9, 9, 9][..])
        );
    }

    /// A device whose only variable has this type, over the low bits of as many registers as it takes.
    fn only_variable(kind: &str, width: u32) -> [Vec<u32>; 3] {
        let mut text = "device d(b:bit[8] port@{0..3}){".to_string();
        let mut pieces = Vec::new();
        for register in 0..width.div_ceil(8) {
            let bits = (width - 8 * register).min(8) as usize;
            let mask = "*".repeat(8 - bits) + &".".repeat(bits);
            text += &format!("register r{register}=b@{register},mask '{mask}':bit[8];");
            pieces.push(format!("r{register}[{}..0]", bits - 1));
        }
        text += &format!("variable v={}:{kind};}}", pieces.join("#"));
        match load(text.as_bytes()) {
            Verdict::Accepted { description } => tables(&description).into(),
            refused => panic!("{refused}: {text}"),
        }
    }

    /// Below its least a value is refused by 27, above its greatest by 55, in every type.
    #[test]
    fn too_low_or_too_high() {
        let mut types = vec![("bool".to_string(), 1, 0, 1)];
        for width in 1..=32 {
            let size = 1i64 << width;
            types.push((format!("int({width})"), width, 0, size - 1));
            let signed = format!("signed int({width})");
            types.push((signed, width, -size / 2, size / 2 - 1));
        }
        for (kind, width, least, greatest) in types {
            let words = only_variable(&kind, width);
            let begin = |value| {
                let mut operation = Operation::Idle;
                let answer = begin_write(lent(&words), &[0; 4], &[0], &mut operation, 0, value);
                assert_eq!(
                    operation == Operation::Idle,
                    matches!(answer, Answer::Refused(_))
                );
                answer
            };
            for value in [least - 1, i64::MIN] {
                assert_eq!(begin(value), Answer::Refused(27), "{kind}: {value}");
            }
            for value in [greatest + 1, i64::MAX] {
                assert_eq!(begin(value), Answer::Refused(55), "{kind}: {value}");
            }
            for value in [least, greatest] {
                assert!(matches!(begin(value), Answer::Offer(_)), "{kind}: {value}");
            }
        }
    }

    /// A register of this width behind another, its mask all dots but for one bit, and a variable over
    /// the dots.
    fn but_one_bit(width: u32, bit: u32, element: &str) -> [Vec<u32>; 3] {
        let mut mask = ".".repeat(width as usize);
        let at = (width - 1 - bit) as usize;
        mask.replace_range(at..at + 1, element);
        let mut pieces = Vec::new();
        if bit < width - 1 {
            pieces.push(format!("r[{}..{}]", width - 1, bit + 1));
        }
        if bit > 0 {
            pieces.push(format!("r[{}..0]", bit - 1));
        }
        let text = format!(
            "device d(a:bit[8] port,b:bit[{width}] port){{register q=a,mask '********':bit[8];\
             register r=read b,mask '{mask}':bit[{width}];variable v={}:int({});}}",
            pieces.join("#"),
            width - 1
        );
        match load(text.as_bytes()) {
            Verdict::Accepted { description } => tables(&description).into(),
            refused => panic!("{refused}: {text}"),
        }
    }

    /// A read of one register of each width, over every mask element at every bit: only a fixed bit that
    /// is unlike the number's is refused, and it names its register.
    #[test]
    fn contradictions() {
        for (width, bit) in WIDTHS
            .into_iter()
            .flat_map(|width| (0..width).map(move |bit| (width, bit)))
        {
            for (element, contradicted) in [
                ("0", [false, true]),
                ("1", [true, false]),
                ("*", [false; 2]),
            ] {
                let words = but_one_bit(width, bit, element);
                let own = 1 << bit;
                for number in [
                    0,
                    u32::MAX,
                    own,
                    !own,
                    0x5A5A_5A5A,
                    0xA5A5_A5A5,
                    0xFFFF_0000,
                ] {
                    let (mut record, mut marks) = (vec![7, 7], vec![0]);
                    let mut operation = Operation::Reading {
                        variable: 0,
                        step: 0,
                        gathered: 0,
                    };
                    let answer = confirm(
                        lent(&words),
                        &mut record,
                        &mut marks,
                        &mut operation,
                        number,
                    );
                    assert_eq!(
                        answer == Answer::Contradicted { register: 1 },
                        contradicted[(number >> bit & 1) as usize],
                        "{width} {bit} {element}: {number:x}"
                    );
                    assert!(matches!(
                        answer,
                        Answer::Contradicted { .. } | Answer::Done { .. }
                    ));
                    assert_eq!(
                        (record, marks, operation),
                        (vec![7, 7], vec![0], Operation::Idle)
                    );
                }
            }
        }
    }

    /// Bits above the width count as 0 in the power-on list, in a kept record and in a confirmation.
    #[test]
    fn bits_above_the_width() {
        for width in WIDTHS {
            let top = width - 1;
            let dots = ".".repeat(width as usize - 2);
            let text = format!(
                "device d(b:bit[{width}] port){{register r=b,mask '0{dots}1':bit[{width}];\
                 variable v=r[{}..2]:int({});variable w=r[1]:bool;}}",
                top - 1,
                width - 3
            );
            let Verdict::Accepted { description } = load(text.as_bytes()) else {
                panic!("{text}");
            };
            let words: [Vec<u32>; 3] = tables(&description).into();
            let all = ((1u64 << width) - 1) as u32;
            let (mut record, mut marks) = (vec![9], vec![9; 2]);
            let mut operation = Operation::Idle;
            let tables = lent(&words);
            open(tables, &[u32::MAX], &mut record, &mut marks, &mut operation);
            assert_eq!(record, [all]);

            // The bit above all others is fixed 0, and the lowest one 1.
            record[0] = u32::MAX;
            let offered = begin_write(tables, &record, &marks, &mut operation, 1, 0);
            let number = all >> 1 & !2;
            assert!(matches!(offered, Answer::Offer(access) if access.number == number));
            assert_eq!(record, [u32::MAX]);
            confirm(tables, &mut record, &mut marks, &mut operation, u32::MAX);
            assert_eq!(record, [number]);

            begin_read(tables, &record, &marks, &mut operation, 0);
            let read = confirm(
                tables,
                &mut record,
                &mut marks,
                &mut operation,
                !all | 1 | 4,
            );
            assert_eq!(
                read,
                Answer::Done {
                    value: 1,
                    accesses: 1
                }
            );
        }
    }

    const ONE: Calibration = Calibration {
        gain: 0x3FF0_0000_0000_0000,
        offset: 0,
    };

    const INFINITE: Calibration = Calibration {
        gain: 0x7FF0_0000_0000_0000,
        offset: 0,
    };

    /// A signed variable, one whose register has a fixed bit, and a bool.
    const UNITS: &[u8] = b"device d(b:bit[8] port@{0..1}){register r=b:bit[8];\
        register s=b@1,mask '1.......':bit[8];\
        variable v=r[7..1]:signed int(7);variable w=r[0]:bool;variable x=s[6..0]:int(7);}";

    /// A begin of a calibrated read: whatever is lower than 53 comes first, and every refusal leaves the operation.
    #[test]
    fn calibrated_begins() {
        let Verdict::Accepted { description } = load(UNITS) else {
            panic!()
        };
        let words: [Vec<u32>; 3] = tables(&description).into();
        let reading = Operation::Reading {
            variable: 0,
            step: 0,
            gathered: 0,
        };
        for (held, marks, variable, calibration, want) in [
            (Operation::Idle, [0; 3], 0, ONE, None),
            (Operation::Idle, [0; 3], 0, INFINITE, Some(53)),
            (Operation::Idle, [0; 3], 1, ONE, Some(53)),
            (Operation::Idle, [0; 3], 1, INFINITE, Some(53)),
            (Operation::Idle, [0, 1, 1], 0, ONE, None),
            (Operation::Idle, [1, 0, 0], 0, INFINITE, Some(28)),
            (Operation::Idle, [0, 1, 0], 1, ONE, Some(28)),
            (Operation::Idle, [0; 3], 3, INFINITE, Some(25)),
            (reading, [0; 3], 0, INFINITE, Some(23)),
            (reading, [0; 3], 1, ONE, Some(23)),
        ] {
            let mut operation = held;
            let answer = begin_calibrated(
                lent(&words),
                &[0; 2],
                &marks,
                &mut operation,
                variable,
                calibration,
            );
            match want {
                Some(number) => assert_eq!((answer, operation), (Answer::Refused(number), held)),
                None => assert!(matches!(answer, Answer::Offer(_)) && operation == reading),
            }
        }
    }

    /// What a confirmation in units answers to each operation in hand, and whether that is still in hand.
    #[test]
    fn calibrated_confirmations() {
        let Verdict::Accepted { description } = load(UNITS) else {
            panic!()
        };
        let words: [Vec<u32>; 3] = tables(&description).into();
        let read = |variable| Operation::Reading {
            variable,
            step: 0,
            gathered: 0,
        };
        let write = |variable| Operation::Writing {
            variable,
            step: 0,
            value: 1,
        };
        let huge = Calibration {
            gain: 0x7FEF_FFFF_FFFF_FFFF,
            offset: 0,
        };
        let minus_one = Answer::Measured {
            bits: 0xBFF0_0000_0000_0000,
            accesses: 1,
        };
        let done = Answer::Done {
            value: 1,
            accesses: 1,
        };
        let contradicted = Answer::Contradicted { register: 1 };
        for (held, byte, calibration, want, ended) in [
            (read(0), 0xFE, ONE, minus_one, true),
            (read(0), 0xFC, huge, Answer::NotFinite, true),
            (read(0), 0xFE, INFINITE, Answer::Refused(53), false),
            (read(1), 0xFE, ONE, Answer::Refused(53), false),
            (read(2), 0x7F, ONE, contradicted, true),
            (read(2), 0x7F, INFINITE, contradicted, true),
            (read(2), 0xFF, INFINITE, Answer::Refused(53), false),
            (write(0), 0xFE, ONE, done, true),
            (write(0), 0xFE, INFINITE, Answer::Refused(53), false),
            (write(1), 0xFE, ONE, Answer::Refused(53), false),
            (Operation::Idle, 0, INFINITE, Answer::Refused(24), true),
            (read(3), 0, INFINITE, Answer::Refused(22), false),
        ] {
            let (mut record, mut marks, mut operation) = ([0; 2], [0; 3], held);
            let answer = confirm_calibrated(
                lent(&words),
                &mut record,
                &mut marks,
                &mut operation,
                byte,
                calibration,
            );
            assert_eq!(answer, want, "{held:?}");
            assert_eq!(operation, if ended { Operation::Idle } else { held });
            assert_eq!(
                (record[0], marks),
                (if want == done { 2 } else { 0 }, [0; 3])
            );
        }
    }

    /// Any mark but 0 is half-written.
    #[test]
    fn any_mark_counts() {
        let words = words();
        for (mark, want) in [(0, None), (1, Some(28)), (2, Some(28)), (255, Some(28))] {
            let answer = begin_read(lent(&words), &[0, 0], &[mark], &mut Operation::Idle, 0);
            match want {
                Some(number) => assert_eq!(answer, Answer::Refused(number)),
                None => assert!(matches!(answer, Answer::Offer(_))),
            }
        }
    }
}
