//! Lists that go out as JSON are confirmed by the proved station first: each part of each variable is read or written
//! once, and every offer, its place and its number, and the value at the end are to be what the lists say.

use second::{all_bits, Bits, Description, Part, Port, Variable, PARTS};

use crate::replay::answered;
use crate::report::Trouble;

/// Bits without order, of which a variable takes as many as it has.
const PATTERN: u32 = 0x9A5C_6E31;

/// Whether the proved station does what the lists say.
pub fn is_confirmed(text: &[u8], description: &Description) -> Result<bool, Trouble> {
    let mut said = Said::default();
    for (index, variable) in description.variables.iter().enumerate() {
        for part in PARTS {
            if let Some(bits) = variable.part(part) {
                said.open(description.registers.len());
                said.operation(description, index, variable, part, bits);
            }
        }
    }
    Ok(answered(text, &said.calls)? == said.answers)
}

/// Calls, and what the lists say that each is answered with.
#[derive(Default)]
struct Said {
    calls: Vec<String>,
    answers: Vec<String>,
}

impl Said {
    fn call(&mut self, call: String, answer: String) {
        self.calls.push(call);
        self.answers.push(answer);
    }

    fn open(&mut self, registers: usize) {
        self.call(
            format!("open{}", " 0".repeat(registers)),
            "opened".to_string(),
        );
    }

    /// A whole read or write of the pattern, from a record of zeros.
    fn operation(
        &mut self,
        description: &Description,
        index: usize,
        variable: &Variable,
        part: Part,
        bits: &Bits,
    ) {
        let value = value_of(variable);
        let accesses = accesses(description, part, bits);
        let mut call = match part {
            Part::Read => format!("read {index}"),
            Part::Write => format!("write {index} {value}"),
        };
        for Access {
            port,
            number,
            digits,
        } in &accesses
        {
            let (parameter, offset) = (port.parameter, port.offset);
            let (verb, shown) = match part {
                Part::Read => ("read", 0),
                Part::Write => ("write", *number),
            };
            let offer = format!("offer {verb} {parameter} {offset} 0x{shown:0digits$X}");
            self.call(call, offer);
            call = format!("confirm {number}");
        }
        self.call(call, format!("done {value} {}", accesses.len()));
    }
}

/// The value that the pattern's bits stand for.
fn value_of(variable: &Variable) -> i64 {
    let bits = i64::from(PATTERN & all_bits(variable.width));
    let (_, greatest) = variable.bounds();
    if bits > greatest {
        bits - (1 << variable.width)
    } else {
        bits
    }
}

/// An access by the lists: its port, and the number that it carries in so many digits.
struct Access<'d> {
    port: &'d Port,
    number: u32,
    digits: usize,
}

/// The registers in the order of first mention, each with the pattern's bits and its own fixed ones.
fn accesses<'d>(description: &'d Description, part: Part, bits: &Bits) -> Vec<Access<'d>> {
    let mut order: Vec<usize> = Vec::new();
    for piece in &bits.pieces {
        if !order.contains(&piece.register) {
            order.push(piece.register);
        }
    }
    let access = |register: usize| {
        let entry = &description.registers[register];
        let port = entry.part(part)?;
        Some(Access {
            port,
            number: port.mask.ones | carried(bits, register),
            digits: entry.width as usize / 4,
        })
    };
    order.into_iter().filter_map(access).collect()
}

/// The bits of the pattern that a register holds. The last bit of the last piece is the pattern's bit 0.
fn carried(bits: &Bits, register: usize) -> u32 {
    let mut number = 0;
    let mut left = PATTERN;
    for piece in bits.pieces.iter().rev() {
        for bit in piece.low..=piece.high {
            if piece.register == register {
                number |= (left & 1) << bit;
            }
            left >>= 1;
        }
    }
    number
}
