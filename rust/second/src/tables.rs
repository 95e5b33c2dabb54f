//! The three lent tables: slices of 32-bit words, word 0 of each its count.
//!
//! - a parameter: name place, name length, width, range count, 16 × (low, high)
//! - a register: name place, name length, width, then its read part and its write part: present,
//!   parameter, offset, dots, fixed, ones
//! - a variable: name place, name length, kind (0 int, 1 signed int, 2 bool), width, volatile, then
//!   its read part and its write part: present, trigger, piece count, 8 × (register, high, low)
//!
//! Words of unused entries and of absent parts are 0.

use std::fmt;

use crate::description::{
    Bits, Description, Kind, Mask, Name, OffsetRange, Parameter, Piece, Port, Register, Variable,
};
use crate::load::{load, Verdict, TEXT_BYTES};
use crate::syntax::{PARAMETERS, PIECES, RANGES, REGISTERS, VARIABLES};

/// Words of one parameter, register and variable.
pub const PARAMETER_ENTRY: usize = 4 + 2 * RANGES;
pub const REGISTER_ENTRY: usize = 3 + 2 * PORT_ENTRY;
pub const VARIABLE_ENTRY: usize = 5 + 2 * BITS_ENTRY;

/// Words of one part of a register and of a variable.
pub const PORT_ENTRY: usize = 6;
pub const BITS_ENTRY: usize = 3 + 3 * PIECES;

/// The stated sizes of the tables, in words: 577, 961 and 7,553.
pub const PARAMETER_WORDS: usize = 1 + PARAMETERS * PARAMETER_ENTRY;
pub const REGISTER_WORDS: usize = 1 + REGISTERS * REGISTER_ENTRY;
pub const VARIABLE_WORDS: usize = 1 + VARIABLES * VARIABLE_ENTRY;

/// The tables of a description, each of its stated size.
pub fn tables(description: &Description) -> (Vec<u32>, Vec<u32>, Vec<u32>) {
    let mut parameters = vec![0; PARAMETER_WORDS];
    let mut registers = vec![0; REGISTER_WORDS];
    let mut variables = vec![0; VARIABLE_WORDS];
    write_tables(description, &mut parameters, &mut registers, &mut variables);
    (parameters, registers, variables)
}

/// Writes a description into tables that are zero.
fn write_tables(
    description: &Description,
    parameters: &mut [u32],
    registers: &mut [u32],
    variables: &mut [u32],
) {
    parameters[0] = description.parameters.len() as u32;
    for (parameter, entry) in description
        .parameters
        .iter()
        .zip(parameters[1..].chunks_exact_mut(PARAMETER_ENTRY))
    {
        write_name(parameter.name, entry);
        entry[2] = parameter.width;
        entry[3] = parameter.ranges.len() as u32;
        for (range, words) in parameter.ranges.iter().zip(entry[4..].chunks_exact_mut(2)) {
            words[0] = range.low;
            words[1] = range.high;
        }
    }
    registers[0] = description.registers.len() as u32;
    for (register, entry) in description
        .registers
        .iter()
        .zip(registers[1..].chunks_exact_mut(REGISTER_ENTRY))
    {
        write_name(register.name, entry);
        entry[2] = register.width;
        write_port(&register.read, &mut entry[3..3 + PORT_ENTRY]);
        write_port(&register.write, &mut entry[3 + PORT_ENTRY..]);
    }
    variables[0] = description.variables.len() as u32;
    for (variable, entry) in description
        .variables
        .iter()
        .zip(variables[1..].chunks_exact_mut(VARIABLE_ENTRY))
    {
        write_name(variable.name, entry);
        entry[2] = match variable.kind {
            Kind::Int => 0,
            Kind::Signed => 1,
            Kind::Bool => 2,
        };
        entry[3] = variable.width;
        entry[4] = u32::from(variable.volatile);
        write_bits(&variable.read, &mut entry[5..5 + BITS_ENTRY]);
        write_bits(&variable.write, &mut entry[5 + BITS_ENTRY..]);
    }
}

fn write_name(name: Name, entry: &mut [u32]) {
    entry[0] = name.place as u32;
    entry[1] = name.length as u32;
}

fn write_port(port: &Option<Port>, words: &mut [u32]) {
    if let Some(port) = port {
        words[0] = 1;
        words[1] = port.parameter as u32;
        words[2] = port.offset;
        words[3] = port.mask.dots;
        words[4] = port.mask.fixed;
        words[5] = port.mask.ones;
    }
}

fn write_bits(bits: &Option<Bits>, words: &mut [u32]) {
    if let Some(bits) = bits {
        words[0] = 1;
        words[1] = u32::from(bits.trigger);
        words[2] = bits.pieces.len() as u32;
        for (piece, words) in bits.pieces.iter().zip(words[3..].chunks_exact_mut(3)) {
            words[0] = piece.register as u32;
            words[1] = piece.high;
            words[2] = piece.low;
        }
    }
}

/// The description that tables hold; `None` if one is shorter than its stated size. Tables that are
/// not sound give one as well, which may name parameters and registers that are not there.
pub fn describe(parameters: &[u32], registers: &[u32], variables: &[u32]) -> Option<Description> {
    let parameters = parameters.get(..PARAMETER_WORDS)?;
    let registers = registers.get(..REGISTER_WORDS)?;
    let variables = variables.get(..VARIABLE_WORDS)?;
    let entries = |table: &[u32], words: usize| -> Vec<Vec<u32>> {
        table[1..]
            .chunks_exact(words)
            .take(table[0] as usize)
            .map(<[u32]>::to_vec)
            .collect()
    };
    Some(Description {
        parameters: entries(parameters, PARAMETER_ENTRY)
            .iter()
            .map(|entry| Parameter {
                name: read_name(entry),
                width: entry[2],
                ranges: entry[4..]
                    .chunks_exact(2)
                    .take(entry[3] as usize)
                    .map(|words| OffsetRange {
                        low: words[0],
                        high: words[1],
                    })
                    .collect(),
            })
            .collect(),
        registers: entries(registers, REGISTER_ENTRY)
            .iter()
            .map(|entry| Register {
                name: read_name(entry),
                width: entry[2],
                read: read_port(&entry[3..3 + PORT_ENTRY]),
                write: read_port(&entry[3 + PORT_ENTRY..]),
            })
            .collect(),
        variables: entries(variables, VARIABLE_ENTRY)
            .iter()
            .map(|entry| Variable {
                name: read_name(entry),
                kind: match entry[2] {
                    0 => Kind::Int,
                    1 => Kind::Signed,
                    _ => Kind::Bool,
                },
                width: entry[3],
                volatile: entry[4] == 1,
                read: read_bits(&entry[5..5 + BITS_ENTRY]),
                write: read_bits(&entry[5 + BITS_ENTRY..]),
            })
            .collect(),
    })
}

fn read_name(entry: &[u32]) -> Name {
    Name {
        place: entry[0] as usize,
        length: entry[1] as usize,
    }
}

fn read_port(words: &[u32]) -> Option<Port> {
    (words[0] == 1).then(|| Port {
        parameter: words[1] as usize,
        offset: words[2],
        mask: Mask {
            dots: words[3],
            fixed: words[4],
            ones: words[5],
        },
    })
}

fn read_bits(words: &[u32]) -> Option<Bits> {
    (words[0] == 1).then(|| Bits {
        trigger: words[1] == 1,
        pieces: words[3..]
            .chunks_exact(3)
            .take(words[2] as usize)
            .map(|words| Piece {
                register: words[0] as usize,
                high: words[1],
                low: words[2],
            })
            .collect(),
    })
}

/// The answer of loading into lent tables.
#[derive(Clone, Copy, Debug, PartialEq, Eq)]
pub enum Loaded {
    Accepted {
        parameters: usize,
        registers: usize,
        variables: usize,
    },
    Refused {
        number: u8,
        place: usize,
    },
}

impl fmt::Display for Loaded {
    fn fmt(&self, f: &mut fmt::Formatter) -> fmt::Result {
        match self {
            Loaded::Accepted {
                parameters,
                registers,
                variables,
            } => write!(f, "accepted {parameters} {registers} {variables}"),
            Loaded::Refused { number, place } => write!(f, "refused {number} {place}"),
        }
    }
}

/// The lent tables over their stated sizes, unless one is shorter (refusal 1).
pub(crate) fn stated<'t>(
    parameters: &'t mut [u32],
    registers: &'t mut [u32],
    variables: &'t mut [u32],
) -> Option<[&'t mut [u32]; 3]> {
    Some([
        parameters.get_mut(..PARAMETER_WORDS)?,
        registers.get_mut(..REGISTER_WORDS)?,
        variables.get_mut(..VARIABLE_WORDS)?,
    ])
}

/// Loads a text into lent tables. Refusals 1 and 2 touch nothing; 3 to 16 leave the tables zero
/// over their stated sizes, and nothing past those sizes is ever touched.
pub fn load_into(
    text: &[u8],
    parameters: &mut [u32],
    registers: &mut [u32],
    variables: &mut [u32],
) -> Loaded {
    let refused = |number, place| Loaded::Refused { number, place };
    let Some([parameters, registers, variables]) = stated(parameters, registers, variables) else {
        return refused(1, 0);
    };
    if text.len() > TEXT_BYTES {
        return refused(2, 0);
    }
    parameters.fill(0);
    registers.fill(0);
    variables.fill(0);
    match load(text) {
        Verdict::Refused { number, place } => refused(number, place),
        Verdict::Accepted { description } => {
            write_tables(&description, parameters, registers, variables);
            Loaded::Accepted {
                parameters: description.parameters.len(),
                registers: description.registers.len(),
                variables: description.variables.len(),
            }
        }
    }
}

/// The first of the counted variables that the table holds whole and whose recorded name lies
/// inside the text and equals the name asked for. An empty name is never found.
pub fn lookup(text: &[u8], variables: &[u32], name: &[u8]) -> Option<usize> {
    let (&count, entries) = variables.split_first()?;
    if name.is_empty() {
        return None;
    }
    entries
        .chunks_exact(VARIABLE_ENTRY)
        .take(count as usize)
        .position(|entry| {
            let Name { place, length } = read_name(entry);
            // A place and a length of 32 bits each cannot overflow their sum on a machine of 64.
            text.get(place..place + length) == Some(name)
        })
}

#[cfg(test)]
mod tests {
    use super::*;

    const A: &[u8] = b"device d(base:bit[8] port){register r=base:bit[8];variable v=r:int(8);}";

    fn loaded(text: &[u8]) -> (Vec<u32>, Vec<u32>, Vec<u32>) {
        match load(text) {
            Verdict::Accepted { description } => tables(&description),
            refused => panic!("{refused}"),
        }
    }

    #[test]
    fn stated_sizes() {
        assert_eq!(
            (PARAMETER_WORDS, REGISTER_WORDS, VARIABLE_WORDS),
            (577, 961, 7553)
        );
    }

    #[test]
    fn text_a() {
        let (parameters, registers, variables) = loaded(A);
        let mut want = vec![1, 9, 4, 8, 1, 0, 0];
        want.resize(577, 0);
        assert_eq!(parameters, want);
        let mut want = vec![1, 36, 1, 8, 1, 0, 0, 255, 0, 0, 1, 0, 0, 255, 0, 0];
        want.resize(961, 0);
        assert_eq!(registers, want);
        let mut want = vec![0; 7553];
        want[..10].copy_from_slice(&[1, 59, 1, 0, 8, 0, 1, 0, 1, 0]);
        want[10..12].copy_from_slice(&[7, 0]);
        want[33..38].copy_from_slice(&[1, 0, 1, 0, 7]);
        assert_eq!(variables, want);
    }

    #[test]
    fn masks_ranges_and_parts() {
        let text = b"device d(a:bit[8] port,b:bit[8] port@{3,5..9}){\
            register r=write b@6,read a,read mask '0*1.....',write mask '....1111':bit[8];\
            variable v=write r[7],read r[0],volatile:bool;\
            variable w=write r[5..4,6],read r[4..3]#r[2]:signed int(3);\
            variable x=read r[1]:int(1);\
            register q=b@9:bit[8];variable t=q,write trigger:int(8);}";
        let (parameters, registers, variables) = loaded(text);
        assert_eq!(parameters[37 + 2..37 + 8], [8, 2, 3, 3, 5, 9]);
        assert_eq!(
            registers[3..16],
            [8, 1, 0, 0, 31, 160, 32, 1, 1, 6, 240, 15, 15]
        );
        assert_eq!(variables[3..6], [2, 1, 1]);
        assert_eq!(variables[6..12], [1, 0, 1, 0, 0, 0]);
        assert_eq!(variables[33..39], [1, 0, 1, 0, 7, 7]);
        assert_eq!(variables[60 + 2..60 + 5], [1, 3, 0]);
        assert_eq!(variables[60 + 5..60 + 14], [1, 0, 2, 0, 4, 3, 0, 2, 2]);
        assert_eq!(variables[60 + 32..60 + 41], [1, 0, 2, 0, 5, 4, 0, 6, 6]);
        assert_eq!(variables[119 + 32..119 + 59], [0; 27]);
        assert_eq!(variables[178 + 5..178 + 11], [1, 0, 1, 1, 7, 0]);
        assert_eq!(variables[178 + 32..178 + 38], [1, 1, 1, 1, 7, 0]);
    }

    /// Widths are recorded, masks have a bit for each of theirs, and a whole register is all its bits.
    #[test]
    fn wide_registers() {
        let text = b"device d(a:bit[16] port,b:bit[32] port@{4}){\
            register r=a,mask '1..............0':bit[16];register s=read b@4:bit[32];\
            register t=write b@4,mask '1*0.............................':bit[32];\
            variable v=r[14..1]:int(14);variable w=s:int(32);variable x=t[28..0]:int(29);}";
        let (parameters, registers, variables) = loaded(text);
        assert_eq!(parameters[3], 16);
        assert_eq!(parameters[37 + 2], 32);
        let mask = [0x7FFE, 0x8001, 0x8000];
        assert_eq!(registers[3..7], [16, 1, 0, 0]);
        assert_eq!(
            (&registers[7..10], &registers[13..16]),
            (&mask[..], &mask[..])
        );
        assert_eq!(registers[16 + 2..16 + 9], [32, 1, 1, 4, u32::MAX, 0, 0]);
        assert_eq!(registers[16 + 9..16 + 15], [0; 6]);
        let mask = [0x1FFF_FFFF, 0xA000_0000, 0x8000_0000];
        assert_eq!(registers[31 + 2], 32);
        assert_eq!(registers[31 + 12..31 + 15], mask);
        assert_eq!(variables[6..12], [1, 0, 1, 0, 14, 1]);
        assert_eq!(variables[60 + 3], 32);
        assert_eq!(variables[60 + 5..60 + 11], [1, 0, 1, 1, 31, 0]);
        assert_eq!(variables[119 + 32..119 + 38], [1, 0, 1, 2, 28, 0]);
    }

    #[test]
    fn tables_give_the_description_back() {
        let Verdict::Accepted { description } = load(A) else {
            panic!()
        };
        let (parameters, registers, variables) = tables(&description);
        assert_eq!(
            describe(&parameters, &registers, &variables),
            Some(description)
        );
        assert_eq!(describe(&parameters[1..], &registers, &variables), None);
    }

    #[test]
    fn what_loading_leaves() {
        let fresh = || (vec![7; 577 + 2], vec![7; 961 + 2], vec![7; 7553 + 2]);
        let (mut p, mut r, mut v) = fresh();

        assert_eq!(
            load_into(b"$", &mut p[..576], &mut r, &mut v).to_string(),
            "refused 1 0"
        );
        assert_eq!(
            load_into(b"$", &mut p, &mut r[..960], &mut v).to_string(),
            "refused 1 0"
        );
        assert_eq!(
            load_into(b"$", &mut p, &mut r, &mut v[..7552]).to_string(),
            "refused 1 0"
        );
        let long = [b' '; 8193];
        assert_eq!(
            load_into(&long, &mut p[..0], &mut r, &mut v).to_string(),
            "refused 1 0"
        );
        assert_eq!(
            load_into(&long, &mut p, &mut r, &mut v).to_string(),
            "refused 2 0"
        );
        assert_eq!((p.clone(), r.clone(), v.clone()), fresh());

        assert_eq!(
            load_into(b"$", &mut p, &mut r, &mut v).to_string(),
            "refused 3 0"
        );
        assert!(p[..577]
            .iter()
            .chain(&r[..961])
            .chain(&v[..7553])
            .all(|w| *w == 0));
        assert_eq!(
            (&p[577..], &r[961..], &v[7553..]),
            (&[7; 2][..], &[7; 2][..], &[7; 2][..])
        );

        let (mut p, mut r, mut v) = fresh();
        assert_eq!(
            load_into(A, &mut p, &mut r, &mut v).to_string(),
            "accepted 1 1 1"
        );
        let (wp, wr, wv) = loaded(A);
        assert_eq!(
            (&p[..577], &r[..961], &v[..7553]),
            (&wp[..], &wr[..], &wv[..])
        );
        assert_eq!(
            (&p[577..], &r[961..], &v[7553..]),
            (&[7; 2][..], &[7; 2][..], &[7; 2][..])
        );
    }

    #[test]
    fn lookups() {
        let text = b"device d(b:bit[8] port){register r=b:bit[8];\
            variable v=r[7..4]:int(4);variable w2=r[3..0]:int(4);}";
        let (_, _, mut table) = loaded(text);
        assert_eq!(lookup(text, &table, b"v"), Some(0));
        assert_eq!(lookup(text, &table, b"w2"), Some(1));
        for name in [&b""[..], b"w", b"V", b"r", b"b", b"d", b"w2 ", b"variable"] {
            assert_eq!(lookup(text, &table, name), None);
        }
        assert_eq!(lookup(text, &[], b"v"), None);
        assert_eq!(lookup(text, &table[..1], b"v"), None);
        assert_eq!(lookup(text, &table[..59], b"v"), None);
        assert_eq!(lookup(text, &table[..60], b"v"), Some(0));
        assert_eq!(lookup(text, &table[..118], b"w2"), None);
        assert_eq!(lookup(&text[..50], &table, b"v"), None);
        // Any recorded name that lies inside the text counts, the first one first.
        table[0] = u32::MAX;
        assert_eq!(lookup(text, &table, b"w2"), Some(1));
        table[1] = 0;
        table[2] = 6;
        assert_eq!(lookup(text, &table, b"device"), Some(0));
        table[1] = u32::MAX;
        table[2] = u32::MAX;
        assert_eq!(lookup(text, &table, b"device"), None);
        table[60] = text.len() as u32 - 1;
        table[61] = 2;
        assert_eq!(lookup(text, &table, b"}"), None);
        table[61] = 1;
        assert_eq!(lookup(text, &table, b"}"), Some(1));
    }
}
