//! Numbers for registers of every width.

use super::Random;
use crate::description::{all_bits, Register};

/// Any number for a register, now and then with bits above its width.
pub fn number_for(random: &mut Random, register: &Register) -> u32 {
    let number = register.cut(random.number() as u32);
    bits_above(random, register.width, number)
}

/// A number of 8, 16 or 32 bits, for no register.
pub fn some_number(random: &mut Random) -> u32 {
    let width = *random.pick(&[8, 8, 16, 32]);
    all_bits(width) & random.number() as u32
}

/// The number, now and then with bits above the width, which count as 0.
pub fn bits_above(random: &mut Random, width: u32, number: u32) -> u32 {
    let above = !all_bits(width);
    let lowest = above & above.wrapping_neg();
    match random.below(6) {
        0 => number | above,
        1 => number | lowest,
        2 => number | above & random.number() as u32,
        _ => number,
    }
}
