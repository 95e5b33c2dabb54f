//! Runs of calls over a text: good ones, refused ones, out of order, and abandoned at every step.

use super::wide::{bits_above, number_for, some_number};
use super::{calibration, Random};
use crate::description::{
    all_bits, Bits, Description, Kind, Mask, Part, Register, Variable, PARTS,
};
use crate::load::{load, Verdict};
use crate::replay::{Call, Session};
use crate::station::{plan, Operation};

/// So many calls over an accepted text; all reads are of plain values.
pub fn run(random: &mut Random, text: &[u8], length: usize) -> Vec<Call> {
    calls(random, text, length, false)
}

/// So many calls over an accepted text; most reads are in units.
pub fn calibrated_run(random: &mut Random, text: &[u8], length: usize) -> Vec<Call> {
    calls(random, text, length, true)
}

fn calls(random: &mut Random, text: &[u8], length: usize, units: bool) -> Vec<Call> {
    let Verdict::Accepted { description } = load(text) else {
        return Vec::new();
    };
    let Ok(mut session) = Session::new(text) else {
        return Vec::new();
    };
    let mut calls = Vec::new();
    let (mut short_record, mut short_marks, mut stuck) = (false, false, false);
    let mut opened = false;
    while calls.len() < length {
        // What was lent short is mostly lent whole again soon, an operation that the tables forbid
        // is mostly let go, and a station that is not open is mostly opened.
        let call = if stuck && random.one_in(2) {
            match random.one_in(2) {
                true => Call::Hold(Operation::Idle),
                false => open(random, &description),
            }
        } else if short_record && random.one_in(2) {
            Call::LendRecord(None)
        } else if short_marks && random.one_in(2) {
            Call::LendMarks(None)
        } else if !opened && !calls.is_empty() && random.one_in(3) {
            open(random, &description)
        } else {
            next(random, &description, text, &session, calls.is_empty())
        };
        let call = match call {
            Call::Write(..) if units && random.one_in(4) => read(random, &description, &session),
            other => other,
        };
        let call = match call {
            Call::Read(variable) if units => in_units(random, &description, variable),
            other => other,
        };
        match call {
            Call::LendRecord(count) => short_record = count.is_some(),
            Call::LendMarks(count) => short_marks = count.is_some(),
            _ => {}
        }
        let answer = session.perform(&call);
        stuck = answer == "refused 22";
        opened |= answer == "opened";
        calls.push(call);
    }
    calls
}

/// A read in units, if the variable is a number and mostly only then.
fn in_units(random: &mut Random, description: &Description, variable: usize) -> Call {
    let wanted = description.variables.get(variable);
    let numeric = wanted.is_none_or(|variable| variable.kind != Kind::Bool);
    match numeric != random.one_in(8) {
        true => Call::Calibrated(variable, calibration(random)),
        false => Call::Read(variable),
    }
}

fn next(
    random: &mut Random,
    description: &Description,
    text: &[u8],
    session: &Session,
    first: bool,
) -> Call {
    if first && !random.one_in(10) {
        return open(random, description);
    }
    if session.operation() != Operation::Idle && !random.one_in(6) {
        return match random.below(5) {
            0 => Call::Abandon,
            _ => Call::Confirm(confirmation(random, description, session.operation())),
        };
    }
    match random.below(100) {
        0..=32 => good_write(random, description),
        33..=61 => read(random, description, session),
        62..=71 => bad_write(random, description),
        72..=75 => Call::Confirm(some_number(random)),
        76..=79 => Call::Abandon,
        80..=83 => open(random, description),
        84..=87 => lookup(random, description, text),
        88..=89 => Call::LendRecord(Some(random.below(description.registers.len() + 2))),
        90..=91 => Call::LendMarks(Some(random.below(description.variables.len() + 2))),
        92..=95 => Call::Hold(held(random, description)),
        _ => Call::State,
    }
}

/// The register that an operation reads next, its mask, and how many registers it reads in all, if the
/// tables allow it.
fn next_read(description: &Description, operation: Operation) -> Option<(&Register, Mask, usize)> {
    let Operation::Reading { variable, step, .. } = operation else {
        return None;
    };
    let bits = description.variables.get(variable)?.read.as_ref()?;
    let registers = plan(bits);
    let register = &description.registers[*registers.get(step)?];
    Some((register, register.read?.mask, registers.len()))
}

/// A number for a confirmation: for a read mostly one that obeys the mask, the more so the longer it
/// is, so that long reads finish; else what a dead cable gives, or one fixed bit is wrong. Now and
/// then it has bits above the width.
fn confirmation(random: &mut Random, description: &Description, operation: Operation) -> u32 {
    let Some((register, mask, length)) = next_read(description, operation) else {
        return some_number(random);
    };
    let obeying = mask.obeying(number_for(random, register));
    if !random.one_in(if length > 3 { 12 } else { 3 }) {
        return obeying;
    }
    let wrong = mask.fixed & 1 << random.below(register.width as usize);
    *random.pick(&[0, u32::MAX, obeying ^ wrong, obeying ^ mask.fixed])
}

/// Mostly as many numbers as there are registers.
fn open(random: &mut Random, description: &Description) -> Call {
    let registers = &description.registers;
    let mut numbers = power_on(random, registers);
    match random.below(12) {
        0 => numbers.truncate(random.below(registers.len())),
        1 => numbers.extend((0..random.below(3)).map(|_| some_number(random))),
        _ => {}
    }
    Call::Open(numbers)
}

/// A number for each register.
fn power_on(random: &mut Random, registers: &[Register]) -> Vec<u32> {
    registers
        .iter()
        .map(|register| number_for(random, register))
        .collect()
}

fn some_variable(random: &mut Random, description: &Description) -> usize {
    match random.below(30) {
        0 => description.variables.len(),
        1 => *random.pick(&[127, 128, 129, 1000, u32::MAX as usize]),
        _ => random.below(description.variables.len()),
    }
}

/// Now and then a half-written variable, or one that a number can contradict, if there is one.
fn read(random: &mut Random, description: &Description, session: &Session) -> Call {
    let fixed = |variable: &usize| {
        let pieces = description.variables[*variable].read.iter();
        let mut registers = pieces
            .flat_map(|bits| &bits.pieces)
            .map(|piece| piece.register);
        registers.any(|register| {
            let port = description.registers[register].read;
            port.is_some_and(|port| port.mask.fixed != 0)
        })
    };
    let marked = |variable: &usize| session.marks()[*variable] != 0;
    let all = 0..description.variables.len();
    let some: Vec<usize> = match random.below(6) {
        0 => all.filter(marked).collect(),
        1..=3 => all.filter(fixed).collect(),
        _ => Vec::new(),
    };
    match some.is_empty() {
        true => Call::Read(some_variable(random, description)),
        false => Call::Read(*random.pick(&some)),
    }
}

fn good_write(random: &mut Random, description: &Description) -> Call {
    let index = some_variable(random, description);
    let Some(variable) = description.variables.get(index) else {
        return Call::Write(index, 0);
    };
    let (least, greatest) = variable.bounds();
    let value = match random.below(6) {
        0 => least,
        1 => greatest,
        _ => least + (random.number() % (greatest - least + 1) as u64) as i64,
    };
    Call::Write(index, value)
}

fn bad_write(random: &mut Random, description: &Description) -> Call {
    let index = some_variable(random, description);
    let (least, greatest) = description
        .variables
        .get(index)
        .map_or((0, 0), Variable::bounds);
    let value = match random.below(5) {
        0 => least - 1,
        1 => greatest + 1,
        2 => i64::MIN,
        3 => i64::MAX,
        _ => random.number() as i64,
    };
    Call::Write(index, value)
}

fn lookup(random: &mut Random, description: &Description, text: &[u8]) -> Call {
    let mut names: Vec<&[u8]> = Vec::new();
    names.extend(description.parameters.iter().map(|p| p.name.of(text)));
    names.extend(description.registers.iter().map(|r| r.name.of(text)));
    for variable in &description.variables {
        names.extend([variable.name.of(text); 2]);
    }
    names.push(b"undeclared");
    let mut name = random.pick(&names).to_vec();
    match random.below(12) {
        0 => name.push(b'x'),
        1 => {
            name.pop();
        }
        _ => {}
    }
    Call::Lookup(name)
}

/// An operation that the tables may allow or not.
fn held(random: &mut Random, description: &Description) -> Operation {
    let variable = some_variable(random, description);
    let width = description.variables.get(variable).map_or(8, |v| v.width);
    let step = random.below(4);
    let pattern = match random.below(4) {
        0 => 0,
        1 => random.number() as u32,
        _ => (random.number() % (1u64 << width)) as u32,
    };
    match random.below(7) {
        0 => Operation::Idle,
        1..=3 => Operation::Reading {
            variable,
            step,
            gathered: pattern,
        },
        _ => Operation::Writing {
            variable,
            step,
            value: pattern,
        },
    }
}

/// Each part of each variable: begun and abandoned after every number of confirmations, then done;
/// and read up to each register that a number can contradict.
pub fn every_step(random: &mut Random, text: &[u8]) -> Vec<Call> {
    let Verdict::Accepted { description } = load(text) else {
        return Vec::new();
    };
    let mut calls = vec![Call::Open(power_on(random, &description.registers))];
    for (index, variable) in description.variables.iter().enumerate() {
        let (least, greatest) = variable.bounds();
        for part in PARTS {
            let Some(bits) = variable.part(part) else {
                continue;
            };
            let due = confirmations_due(&description, part, bits);
            for confirmations in 0..=due.len() {
                let value = least + (random.number() % (greatest - least + 1) as u64) as i64;
                calls.push(match part {
                    Part::Read => Call::Read(index),
                    Part::Write => Call::Write(index, value),
                });
                calls.extend(due[..confirmations].iter().map(|due| due.met(random)));
                calls.push(Call::State);
                if confirmations < due.len() {
                    calls.push(Call::Abandon);
                    calls.push(Call::Read(index));
                    calls.push(Call::State);
                    // A read of a variable that is not half-written is in hand now.
                    if part == Part::Read {
                        calls.push(Call::Abandon);
                    }
                }
            }
            for (step, missed) in due.iter().enumerate() {
                if missed.mask.fixed != 0 {
                    calls.push(Call::Read(index));
                    calls.extend(due[..step].iter().map(|due| due.met(random)));
                    calls.push(missed.missed(random));
                    calls.push(Call::State);
                }
            }
        }
    }
    calls
}

/// What a confirmation must fit: a mask of this width.
struct Due {
    width: u32,
    mask: Mask,
}

/// What the confirmations of a part must fit, one after the other: anything will do for a write.
fn confirmations_due(description: &Description, part: Part, bits: &Bits) -> Vec<Due> {
    let due = |index: usize| {
        let Register { width, read, .. } = description.registers[index];
        let mask = match (part, read) {
            (Part::Read, Some(port)) => port.mask,
            _ => Mask::dots(width),
        };
        Due { width, mask }
    };
    plan(bits).into_iter().map(due).collect()
}

impl Due {
    /// Any number that fits, as far as the mask is wide.
    fn obeying(&self, random: &mut Random) -> u32 {
        self.mask
            .obeying(random.number() as u32 & all_bits(self.width))
    }

    fn met(&self, random: &mut Random) -> Call {
        let number = self.obeying(random);
        Call::Confirm(bits_above(random, self.width, number))
    }

    /// Every fixed bit is wrong.
    fn missed(&self, random: &mut Random) -> Call {
        let number = self.obeying(random) ^ self.mask.fixed;
        Call::Confirm(bits_above(random, self.width, number))
    }
}
