//! Tables, sound ones and ones damaged in a word.

use super::{valid, Random};
use crate::description::WIDTHS;
use crate::load::{load, Verdict};
use crate::tables::{
    tables, BITS_ENTRY, PARAMETER_ENTRY, PORT_ENTRY, REGISTER_ENTRY, VARIABLE_ENTRY,
};

#[derive(Clone, Debug, PartialEq, Eq)]
pub struct TableSet {
    pub parameters: Vec<u32>,
    pub registers: Vec<u32>,
    pub variables: Vec<u32>,
}

/// Tables of a generated description. Recorded names and words past the stated sizes are anything.
pub fn sound_tables(random: &mut Random) -> TableSet {
    let text = valid(random);
    let Verdict::Accepted { description } = load(&text) else {
        unreachable!("a valid text is accepted");
    };
    let (parameters, registers, variables) = tables(&description);
    let mut set = TableSet {
        parameters,
        registers,
        variables,
    };
    if random.one_in(4) {
        for (table, entry) in [
            (&mut set.parameters, 36),
            (&mut set.registers, 15),
            (&mut set.variables, 59),
        ] {
            let count = table[0] as usize;
            if count > 0 {
                let at = 1 + entry * random.below(count) + random.below(2);
                table[at] = random.number() as u32;
            }
        }
    }
    if random.one_in(4) {
        for table in [&mut set.parameters, &mut set.registers, &mut set.variables] {
            for _ in 0..random.below(4) {
                table.push(random.number() as u32);
            }
        }
    }
    set
}

/// Sound tables with one word changed, or one table cut short, or two registers whose write parts
/// are brought to one place or no longer told apart there, or widths that are others.
pub fn damaged_tables(random: &mut Random) -> TableSet {
    let mut set = sound_tables(random);
    match random.below(8) {
        0 => {
            one_write_place(random, &mut set.registers);
            return set;
        }
        1 => {
            other_widths(random, &mut set);
            return set;
        }
        _ => {}
    }
    let (table, entry) = match random.below(5) {
        0 => (&mut set.parameters, 36),
        1 | 2 => (&mut set.registers, 15),
        _ => (&mut set.variables, 59),
    };
    if random.one_in(30) {
        let length = random.below(table.len());
        table.truncate(length);
        return set;
    }
    // Mostly in the used entries, sometimes past them, sometimes the count.
    let used = 1 + entry * table[0] as usize;
    let at = match random.below(12) {
        0 => 0,
        1 => random.below(table.len()),
        2 => used.min(table.len() - 1),
        _ => random.below(used),
    };
    let old = table[at];
    table[at] = match random.below(9) {
        0 => 0,
        1 => 1,
        2 => old.wrapping_add(1),
        3 => old.wrapping_sub(1),
        4 => old ^ 1 << random.below(32),
        5 => old ^ 1 << random.below(8),
        6 => *random.pick(&table.clone()),
        7 => random.below(300) as u32,
        _ => random.number() as u32,
    };
    set
}

/// A parameter or a register takes another width, alone or all of them at once; or a mask, or a piece,
/// has a bit above its register's width, or just below.
fn other_widths(random: &mut Random, set: &mut TableSet) {
    let width = match random.one_in(4) {
        true => *random.pick(&[0, 1, 7, 9, 12, 15, 17, 24, 31, 33, 64, u32::MAX]),
        false => *random.pick(&WIDTHS),
    };
    let entries = |table: &[u32], entry: usize| -> Vec<usize> {
        (0..table[0] as usize).map(|i| 1 + entry * i).collect()
    };
    let parameters = entries(&set.parameters, PARAMETER_ENTRY);
    let registers = entries(&set.registers, REGISTER_ENTRY);
    let register = *random.pick(&registers);
    match random.below(5) {
        0 => set.parameters[*random.pick(&parameters) + 2] = width,
        1 => set.registers[register + 2] = width,
        2 => {
            parameters
                .iter()
                .for_each(|at| set.parameters[at + 2] = width);
            registers
                .iter()
                .for_each(|at| set.registers[at + 2] = width);
        }
        3 => {
            let bit = set.registers[register + 2] - random.below(2) as u32;
            let word = register + 3 + PORT_ENTRY * random.below(2) + 3 + random.below(3);
            set.registers[word] |= 1u32.checked_shl(bit).unwrap_or(0);
        }
        _ => {
            let variables = entries(&set.variables, VARIABLE_ENTRY);
            if !variables.is_empty() {
                let part = *random.pick(&variables) + 5 + BITS_ENTRY * random.below(2);
                let own = registers[set.variables[part + 3] as usize];
                let bit = set.registers[own + 2] - random.below(2) as u32;
                set.variables[part + 4 + random.below(2)] = bit;
            }
        }
    }
}

/// One register goes to the write place of another, if there are two; or two that are there already
/// lose the bits that tell them apart.
fn one_write_place(random: &mut Random, registers: &mut [u32]) {
    let writes: Vec<usize> = (0..registers[0] as usize)
        .map(|register| 1 + REGISTER_ENTRY * register + 3 + PORT_ENTRY)
        .filter(|port| registers[*port] == 1)
        .collect();
    let mut shared = Vec::new();
    for (i, one) in writes.iter().enumerate() {
        for other in &writes[..i] {
            if registers[one + 1..one + 3] == registers[other + 1..other + 3] {
                shared.push((*one, *other));
            }
        }
    }
    if !shared.is_empty() && random.one_in(2) {
        let (one, other) = *random.pick(&shared);
        let told =
            registers[one + 4] & registers[other + 4] & (registers[one + 5] ^ registers[other + 5]);
        registers[one + 4] &= !told;
        registers[one + 5] &= !told;
    } else if writes.len() > 1 {
        let (one, other) = (*random.pick(&writes), *random.pick(&writes));
        let place = [registers[other + 1], registers[other + 2]];
        registers[one + 1..one + 3].copy_from_slice(&place);
    }
}
