//! Refusal 20: whether any three slices are tables that some accepted text could have left,
//! recorded names aside. Written clause by clause, with no thought for speed.

use crate::description::WIDTHS;
use crate::syntax::{PARAMETERS, PIECES, RANGES, REGISTERS, VARIABLES};
use crate::tables::{
    BITS_ENTRY, PARAMETER_ENTRY, PARAMETER_WORDS, PORT_ENTRY, REGISTER_ENTRY, REGISTER_WORDS,
    VARIABLE_ENTRY, VARIABLE_WORDS,
};

pub fn sound(parameters: &[u32], registers: &[u32], variables: &[u32]) -> bool {
    if parameters.len() < PARAMETER_WORDS
        || registers.len() < REGISTER_WORDS
        || variables.len() < VARIABLE_WORDS
    {
        return false;
    }
    let counts = [parameters[0], registers[0], variables[0]];
    if !(1..=PARAMETERS as u32).contains(&counts[0])
        || !(1..=REGISTERS as u32).contains(&counts[1])
        || counts[2] > VARIABLES as u32
    {
        return false;
    }
    let parameters = Table::new(&parameters[..PARAMETER_WORDS], PARAMETER_ENTRY);
    let registers = Table::new(&registers[..REGISTER_WORDS], REGISTER_ENTRY);
    let variables = Table::new(&variables[..VARIABLE_WORDS], VARIABLE_ENTRY);
    unused_are_zero(&parameters, &registers, &variables)
        && parameters
            .used
            .iter()
            .all(|parameter| parameter_good(parameter))
        && registers
            .used
            .iter()
            .all(|register| register_good(register, &parameters.used))
        && places_differ(&registers.used)
        && variables
            .used
            .iter()
            .all(|variable| variable_good(variable, &registers.used))
        && (0..2).all(|part| {
            bits_mapped_once(part, &variables.used)
                && triggers_alone(part, &variables.used)
                && dots_mapped(part, &registers.used, &variables.used)
        })
}

/// A table as its counted entries and the others.
struct Table<'a> {
    used: Vec<&'a [u32]>,
    unused: Vec<&'a [u32]>,
}

impl<'a> Table<'a> {
    fn new(words: &'a [u32], entry: usize) -> Self {
        let mut used: Vec<_> = words[1..].chunks_exact(entry).collect();
        let unused = used.split_off(words[0] as usize);
        Table { used, unused }
    }
}

fn zero(words: &[u32]) -> bool {
    words.iter().all(|word| *word == 0)
}

fn flag(word: u32) -> bool {
    word <= 1
}

fn unused_are_zero(parameters: &Table, registers: &Table, variables: &Table) -> bool {
    [parameters, registers, variables]
        .iter()
        .all(|table| table.unused.iter().all(|entry| zero(entry)))
}

/// Width 8, 16 or 32; one to sixteen ranges, none going down, none over 255; no words past them.
fn parameter_good(parameter: &[u32]) -> bool {
    let (width, count) = (parameter[2], parameter[3] as usize);
    WIDTHS.contains(&width)
        && (1..=RANGES).contains(&count)
        && ranges(parameter).all(|range| range[0] <= range[1] && range[1] <= 255)
        && zero(&parameter[4 + 2 * count..])
}

fn ranges(parameter: &[u32]) -> impl Iterator<Item = &[u32]> {
    parameter[4..].chunks_exact(2).take(parameter[3] as usize)
}

/// Part 0 of a register is its read part, part 1 its write part.
fn port(register: &[u32], part: usize) -> &[u32] {
    &register[3 + part * PORT_ENTRY..][..PORT_ENTRY]
}

/// One part at least.
fn register_good(register: &[u32], parameters: &[&[u32]]) -> bool {
    let width = register[2];
    (0..2).all(|part| port_good(port(register, part), width, parameters))
        && (0..2).any(|part| port(register, part)[0] == 1)
}

/// A place of a parameter that has the register's width, and a mask with no bit above it.
fn port_good(port: &[u32], width: u32, parameters: &[&[u32]]) -> bool {
    let [present, parameter, offset, dots, fixed, ones] = *port else {
        return false;
    };
    if present == 0 {
        return zero(port);
    }
    flag(present)
        && (parameter as usize) < parameters.len()
        && parameters[parameter as usize][2] == width
        && ranges(parameters[parameter as usize])
            .any(|range| range[0] <= offset && offset <= range[1])
        && u64::from(dots) < 1 << width
        && u64::from(fixed) < 1 << width
        && dots & fixed == 0
        && ones & !fixed == 0
}

/// Rule 10.
fn places_differ(registers: &[&[u32]]) -> bool {
    (0..2).all(|part| {
        (0..registers.len()).all(|later| {
            (0..later).all(|earlier| {
                let (one, other) = (port(registers[earlier], part), port(registers[later], part));
                let absent = one[0] == 0 || other[0] == 0;
                absent || one[1..3] != other[1..3] || (part == 1 && told_apart(one, other))
            })
        })
    })
}

/// Whether some bit is fixed 0 in one port's mask and 1 in the other's.
fn told_apart(one: &[u32], other: &[u32]) -> bool {
    let zero = |port: &[u32], bit: u32| port[4] >> bit & 1 == 1 && port[5] >> bit & 1 == 0;
    let set = |port: &[u32], bit: u32| port[4] >> bit & 1 == 1 && port[5] >> bit & 1 == 1;
    (0..32).any(|bit| zero(one, bit) && set(other, bit) || set(one, bit) && zero(other, bit))
}

/// Part 0 of a variable is its read part, part 1 its write part.
fn part_of(variable: &[u32], part: usize) -> &[u32] {
    &variable[5 + part * BITS_ENTRY..][..BITS_ENTRY]
}

fn pieces(bits: &[u32]) -> impl Iterator<Item = &[u32]> {
    bits[3..].chunks_exact(3).take(bits[2] as usize)
}

/// Rules 11, 12 and 13 of one variable.
fn variable_good(variable: &[u32], registers: &[&[u32]]) -> bool {
    let (kind, width, volatile) = (variable[2], variable[3], variable[4]);
    let present = |part| part_of(variable, part)[0] == 1;
    kind <= 2
        && (kind != 2 || width == 1)
        && flag(volatile)
        && (volatile == 0 || present(0))
        && (present(0) || present(1))
        && (0..2).all(|part| bits_good(part, part_of(variable, part), width, registers))
}

fn bits_good(part: usize, bits: &[u32], width: u32, registers: &[&[u32]]) -> bool {
    let (present, trigger, count) = (bits[0], bits[1], bits[2] as usize);
    if present == 0 {
        return zero(bits);
    }
    flag(present)
        && flag(trigger)
        && (1..=PIECES).contains(&count)
        && zero(&bits[3 + 3 * count..])
        && pieces(bits).all(|piece| piece_good(part, piece, registers))
        && {
            let places = bit_places(bits);
            places.len() == width as usize
                && width <= 32
                && (0..places.len())
                    .all(|later| (0..later).all(|earlier| places[earlier] != places[later]))
        }
}

/// Bits below the width, not rising, of a register that has this part, all of them dots of its mask.
fn piece_good(part: usize, piece: &[u32], registers: &[&[u32]]) -> bool {
    let [register, high, low] = *piece else {
        return false;
    };
    (register as usize) < registers.len() && {
        let register = registers[register as usize];
        let port = port(register, part);
        port[0] == 1
            && high < register[2]
            && low <= high
            && (low..=high).all(|bit| port[3] >> bit & 1 == 1)
    }
}

/// The bits of a part whose pieces are good, each as (register, bit), the most significant first.
fn bit_places(bits: &[u32]) -> Vec<(u32, u32)> {
    let mut places = Vec::new();
    for piece in pieces(bits) {
        for bit in (piece[2]..=piece[1]).rev() {
            places.push((piece[0], bit));
        }
    }
    places
}

/// The bits that each variable maps in a part.
fn mapped(part: usize, variables: &[&[u32]]) -> Vec<Vec<(u32, u32)>> {
    let of = |variable: &&[u32]| bit_places(part_of(variable, part));
    variables.iter().map(of).collect()
}

/// Rule 14.
fn bits_mapped_once(part: usize, variables: &[&[u32]]) -> bool {
    let mapped = mapped(part, variables);
    let mut all: Vec<_> = mapped.iter().flatten().collect();
    let count = all.len();
    all.sort();
    all.dedup();
    all.len() == count
}

/// Rule 15.
fn triggers_alone(part: usize, variables: &[&[u32]]) -> bool {
    let mapped = mapped(part, variables);
    let holds = |index: usize, register: u32| mapped[index].iter().any(|place| place.0 == register);
    (0..variables.len()).all(|one| {
        part_of(variables[one], part)[1] == 0
            || (0..variables.len())
                .all(|other| one == other || mapped[one].iter().all(|place| !holds(other, place.0)))
    })
}

/// Rule 16.
fn dots_mapped(part: usize, registers: &[&[u32]], variables: &[&[u32]]) -> bool {
    let mapped = mapped(part, variables).concat();
    (0..registers.len()).all(|register| {
        let dots = port(registers[register], part)[3];
        (0..32).all(|bit| dots >> bit & 1 == 0 || mapped.contains(&(register as u32, bit)))
    })
}

#[cfg(test)]
mod tests {
    use super::*;
    use crate::load::{load, Verdict};
    use crate::tables::tables;

    fn of(text: &str) -> [Vec<u32>; 3] {
        match load(text.as_bytes()) {
            Verdict::Accepted { description } => tables(&description).into(),
            refused => panic!("{refused}: {text}"),
        }
    }

    fn good([parameters, registers, variables]: &[Vec<u32>; 3]) -> bool {
        sound(parameters, registers, variables)
    }

    /// Two parameters; two registers, the second with other masks for its parts; three variables.
    fn board() -> [Vec<u32>; 3] {
        of("device d(a:bit[8] port,b:bit[8] port@{3,5..9}){\
            register q=a:bit[8];\
            register r=write b@6,read b@3,read mask '0*1.....',write mask '....1111':bit[8];\
            variable u=q:int(8);\
            variable v=write r[7],read r[0],volatile:bool;\
            variable w=write r[5..4,6],read r[4..3]#r[2]:signed int(3);\
            variable x=read r[1]:int(1);}")
    }

    #[test]
    fn loaded_tables_are_sound() {
        assert!(good(&board()));
        assert!(good(&of(
            "device d(b:bit[8] port){register r=b,mask '01**0101':bit[8];}"
        )));
    }

    #[test]
    fn short_tables() {
        let [p, r, v] = board();
        assert!(!sound(&p[..576], &r, &v));
        assert!(!sound(&p, &r[..960], &v));
        assert!(!sound(&p, &r, &v[..7552]));
        assert!(!sound(&[], &[], &[]));
        let longer = |t: &[u32]| [t, &[9, 9]].concat();
        assert!(sound(&longer(&p), &longer(&r), &longer(&v)));
    }

    /// Each line sets one word of the board: table, word, value, and whether the tables stay sound.
    #[test]
    fn one_word() {
        const P: usize = 0;
        const R: usize = 1;
        const V: usize = 2;
        for (table, word, value, want) in [
            // counts
            (P, 0, 0, false),
            (P, 0, 1, false),
            (P, 0, 3, false),
            (P, 0, 17, false),
            (R, 0, 0, false),
            (R, 0, 1, false),
            (R, 0, 3, false),
            (R, 0, 65, false),
            (R, 0, u32::MAX, false),
            (V, 0, 0, false),
            (V, 0, 3, false),
            (V, 0, 5, false),
            (V, 0, 129, false),
            // names are aside, those of unused entries are not
            (P, 1, u32::MAX, true),
            (R, 2, 0, true),
            (V, 1, 4_000_000_000, true),
            (P, 1 + 72, 1, false),
            (R, 1 + 30, 1, false),
            (V, 1 + 4 * 59, 1, false),
            (P, 576, 1, false),
            (R, 960, 1, false),
            (V, 7552, 1, false),
            // the first parameter: width, ranges
            (P, 3, 9, false),
            (P, 4, 0, false),
            (P, 4, 2, true),
            (P, 4, 17, false),
            (P, 6, 255, true),
            (P, 6, 256, false),
            (P, 5, 1, false),
            (P, 7, 1, false),
            // the second parameter no longer has offset 6, or 3
            (P, 37 + 6, 7, false),
            (P, 37 + 4, 2, true),
            (P, 37 + 5, 2, false),
            // the first register: width, flag, parameter, offset, mask
            (R, 3, 7, false),
            (R, 4, 0, false),
            (R, 4, 2, false),
            (R, 5, 1, false),
            (R, 5, 2, false),
            (R, 6, 1, false),
            (R, 7, 127, false),
            (R, 7, 511, false),
            (R, 8, 1, false),
            (R, 9, 1, false),
            // the second register's read mask, 0*1.....
            (R, 16 + 6, 63, false),
            (R, 16 + 7, 96, true),
            (R, 16 + 7, 128, false),
            (R, 16 + 7, 0, false),
            (R, 16 + 7, 161, false),
            (R, 16 + 7, 416, false),
            (R, 16 + 8, 0, true),
            (R, 16 + 8, 160, true),
            (R, 16 + 8, 64, false),
            // the second register moves onto the first, in its read part
            (R, 16 + 4, 0, false),
            (R, 16 + 5, 9, true),
            // the first variable
            (V, 3, 1, true),
            (V, 3, 2, false),
            (V, 3, 3, false),
            (V, 4, 7, false),
            (V, 5, 1, true),
            (V, 5, 2, false),
            (V, 6, 0, false),
            (V, 6, 2, false),
            (V, 7, 1, true),
            (V, 7, 2, false),
            (V, 8, 0, false),
            (V, 8, 2, false),
            (V, 8, 9, false),
            (V, 9, 1, false),
            (V, 9, 2, false),
            (V, 10, 6, false),
            (V, 10, 8, false),
            (V, 10, u32::MAX, false),
            (V, 11, 1, false),
            (V, 12, 1, false),
            (V, 33, 0, false),
            // the second variable, a bool: kind, volatile, trigger beside others
            (V, 60 + 2, 0, true),
            (V, 60 + 4, 0, true),
            (V, 60 + 6, 1, false),
            (V, 60 + 33, 1, false),
            // the fourth is only read: no write trigger, no pieces
            (V, 178 + 4, 1, true),
            (V, 178 + 33, 1, false),
            (V, 178 + 34, 1, false),
            (V, 178 + 35, 1, false),
            (V, 178 + 2, 2, true),
            // its bit 1 becomes bit 0, which is the second's
            (V, 178 + 9, 0, false),
            (V, 178 + 10, 0, false),
        ] {
            let mut tables = board();
            assert_ne!(tables[table][word], value, "no change: {table} {word}");
            tables[table][word] = value;
            assert_eq!(good(&tables), want, "table {table} word {word} to {value}");
        }
    }

    /// Three parameters and two registers, wider than 8; the second has a parameter for each part.
    fn wide_board() -> [Vec<u32>; 3] {
        of("device d(a:bit[16] port,b:bit[32] port,c:bit[32] port){\
            register r=a,mask '1..............0':bit[16];\
            register s=read b,write c,mask '*...............................':bit[32];\
            variable v=r[14..1]:int(14);variable w=s[30..0]:int(31);}")
    }

    /// Each line sets one word of the wide board: table, word, value, and whether the tables stay sound.
    #[test]
    fn one_word_of_a_wide_board() {
        const P: usize = 0;
        const R: usize = 1;
        const V: usize = 2;
        assert!(good(&wide_board()));
        for (table, word, value, want) in [
            // a width that no port has, and another port's
            (P, 3, 0, false),
            (P, 3, 12, false),
            (P, 3, 17, false),
            (P, 3, 24, false),
            (P, 3, 64, false),
            (P, 3, u32::MAX, false),
            (P, 3, 8, false),
            (P, 3, 32, false),
            (P, 37 + 2, 16, false),
            (P, 73 + 2, 16, false),
            (R, 3, 8, false),
            (R, 3, 15, false),
            (R, 3, 32, false),
            (R, 16 + 2, 16, false),
            (R, 16 + 2, 33, false),
            (R, 16 + 2, 64, false),
            // the first register's read part moves to the third parameter, of another width; the
            // second's too, whose width that is
            (R, 5, 2, false),
            (R, 16 + 4, 2, true),
            // its mask of sixteen bits
            (R, 7, 0x1_7FFE, false),
            (R, 7, 0x7FFF, false),
            (R, 8, 0x1_8001, false),
            (R, 8, 0x8000, true),
            (R, 9, 0x1_8000, false),
            (R, 9, 0x8001, true),
            // the second's of 32
            (R, 16 + 6, u32::MAX, false),
            (R, 16 + 7, 0x8000_0000, true),
            (R, 16 + 8, 0x8000_0000, false),
            // pieces
            (V, 10, 13, false),
            (V, 10, 15, false),
            (V, 10, 16, false),
            (V, 10, 31, false),
            (V, 60 + 9, 31, false),
            (V, 60 + 9, 32, false),
            (V, 60 + 9, u32::MAX, false),
            (V, 60 + 3, 32, false),
        ] {
            let mut tables = wide_board();
            assert_ne!(tables[table][word], value, "no change: {table} {word}");
            tables[table][word] = value;
            assert_eq!(good(&tables), want, "table {table} word {word} to {value}");
        }
    }

    /// The highest bit of each width tells two write parts apart, and no other does.
    #[test]
    fn told_apart_by_the_highest_bit() {
        for width in WIDTHS {
            let stars = "*".repeat(width as usize - 1);
            let mut tables = of(&format!(
                "device d(b:bit[{width}] port){{register p=write b,mask '1{stars}':bit[{width}];\
                 register q=write b,mask '0{stars}':bit[{width}];}}"
            ));
            assert!(good(&tables));
            // The write mask of q, fixed and ones.
            let mask = 1 + 15 + 9 + 4;
            for [fixed, ones] in [[0, 0], [1 << (width - 1); 2], [1 << (width - 2), 0]] {
                tables[1][mask..][..2].copy_from_slice(&[fixed, ones]);
                assert!(!good(&tables), "{width}: {fixed:x} {ones:x}");
            }
        }
    }

    /// Two registers with both parts, at one write place, and a third that only writes there; no dots.
    #[test]
    fn one_write_place() {
        let text = |masks: [&str; 3]| {
            format!(
                "device d(b:bit[8] port@{{0..2}}){{\
                 register p=read b,write b@2,read mask '********',write mask '{}':bit[8];\
                 register q=read b@1,write b@2,read mask '********',write mask '{}':bit[8];\
                 register r=write b@2,mask '{}':bit[8];}}",
                masks[0], masks[1], masks[2]
            )
        };
        let tables = of(&text(["1*******", "0*****1*", "0*****0*"]));
        assert!(good(&tables));
        // The words of the write masks, fixed and ones, of p, q and r.
        let mask = |register: usize| 1 + 15 * register + 9 + 4;
        for (register, [fixed, ones], want) in [
            (0, [0x80, 0x00], false),
            (0, [0x00, 0x00], false),
            (0, [0xFF, 0x80], true),
            (0, [0x02, 0x02], false),
            (0, [0x81, 0x01], false),
            (1, [0x80, 0x00], false),
            (1, [0x82, 0x82], false),
            (1, [0x82, 0x80], false),
            (1, [0x02, 0x02], false),
            (2, [0x82, 0x02], false),
            (2, [0x80, 0x00], false),
            (2, [0x83, 0x00], true),
        ] {
            let mut tables = tables.clone();
            tables[1][mask(register)..][..2].copy_from_slice(&[fixed, ones]);
            assert_eq!(good(&tables), want, "{register}: {fixed:x} {ones:x}");
        }
        // No bit tells read parts apart: q's read place becomes p's.
        let mut tables = tables.clone();
        for (register, ones) in [(0, 0x00), (1, 0x80)] {
            let read = 1 + 15 * register + 3;
            tables[1][read + 4..][..2].copy_from_slice(&[0x80, ones]);
        }
        assert!(good(&tables));
        tables[1][1 + 15 + 3 + 2] = 0;
        assert!(!good(&tables));
    }

    #[test]
    fn volatile_needs_a_read_part() {
        let mut tables =
            of("device d(b:bit[8] port){register r=write b:bit[8];variable v=r:int(8);}");
        assert!(good(&tables));
        tables[2][5] = 1;
        assert!(!good(&tables));
    }

    #[test]
    fn a_part_must_be_there() {
        let mut tables = of("device d(b:bit[8] port){register r=read b,mask '********':bit[8];}");
        assert!(good(&tables));
        tables[1][4..10].fill(0);
        assert!(!good(&tables));
        let mut tables = of("device d(b:bit[8] port){register r=b,mask '********':bit[8];}");
        tables[2][0] = 1;
        assert!(!good(&tables));
        tables[2][4] = 1;
        assert!(!good(&tables));
    }

    #[test]
    fn repeated_and_many_bits() {
        let mut tables = of("device d(b:bit[8] port@{0..4}){\
            register r0=b@0:bit[8];register r1=b@1:bit[8];register r2=b@2:bit[8];\
            register r3=b@3:bit[8];register r4=b@4,mask '*.......':bit[8];\
            variable v=r0#r1#r2#r3:int(32);variable w=r4[6..0]:int(7);}");
        assert!(good(&tables));
        // A fifth piece, in both parts, of one bit more: 33 bits.
        for part in [6, 33] {
            tables[2][part + 2] = 5;
            tables[2][part + 15..part + 18].copy_from_slice(&[4, 7, 7]);
        }
        tables[2][4] = 33;
        tables[1][1 + 4 * 15 + 6] = 255;
        tables[1][1 + 4 * 15 + 12] = 255;
        assert!(!good(&tables));
        // The same bit twice in one part.
        let mut tables =
            of("device d(b:bit[8] port){register r=b,mask '......**':bit[8];variable v=r[7..5]#r[4..2]:int(6);}");
        assert!(good(&tables));
        for part in [6, 33] {
            tables[2][part + 7] = 5;
        }
        tables[2][4] = 7;
        assert!(!good(&tables));
    }
}
