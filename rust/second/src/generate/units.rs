//! Calibrations, and readings for them: products and sums of every kind.

use super::Random;
use crate::units::Calibration;

const SIGN: u64 = 1 << 63;
const ONE: u64 = 0x3FF0_0000_0000_0000;
const GREATEST: u64 = 0x7FEF_FFFF_FFFF_FFFF;
const INFINITE: u64 = 0x7FF0_0000_0000_0000;

/// Doubles of a place in the order: zeros, around the least, the least normal, one, two to the 53, and the greatest.
const CORNERS: [u64; 10] = [
    0,
    1,
    2,
    0x000F_FFFF_FFFF_FFFF,
    0x0010_0000_0000_0000,
    0x3FEF_FFFF_FFFF_FFFF,
    ONE,
    0x3FF0_0000_0000_0001,
    0x4340_0000_0000_0000,
    GREATEST,
];

/// A calibration: one that is not finite (53), one that all but the least readings pass (54), or any other.
pub fn calibration(random: &mut Random) -> Calibration {
    let (gain, offset) = match random.below(20) {
        0..=1 => (not_finite(random), double(random)),
        2 => (double(random), not_finite(random)),
        3..=12 => (huge(random), double(random)),
        13 => (double(random), huge(random)),
        _ => (double(random), double(random)),
    };
    Calibration { gain, offset }
}

/// A calibration and a reading for it, as a record of the program `readings` has them.
pub fn reading(random: &mut Random) -> (Calibration, u32) {
    match random.below(14) {
        0..=1 => (calibration(random), some_reading(random)),
        2..=3 => product_tie(random),
        4 => sum_tie(random),
        5..=6 => nearly_cancelled(random),
        7..=8 => around_the_greatest(random),
        9 => subnormal(random),
        10 => zero(random),
        _ => {
            let offset = double(random);
            let gain = double(random);
            (Calibration { gain, offset }, some_reading(random))
        }
    }
}

fn some_reading(random: &mut Random) -> u32 {
    let any = random.number() as u32;
    match random.below(4) {
        0 => *random.pick(&[0, 1, 2, 10, 1 << 31, (1 << 31) - 1, u32::MAX]),
        1 => any >> random.below(32),
        _ => any,
    }
}

fn sign(random: &mut Random) -> u64 {
    random.number() & SIGN
}

/// A pattern of infinity or of no number.
fn not_finite(random: &mut Random) -> u64 {
    let payload = match random.below(4) {
        0 => 0,
        1 => 1,
        2 => INFINITE >> 1,
        _ => random.number(),
    };
    sign(random) | INFINITE | payload
}

/// A double within four powers of two of the greatest.
fn huge(random: &mut Random) -> u64 {
    sign(random) | (GREATEST - (random.number() >> 10))
}

/// A finite double: a corner, a short decimal, of a modest size, or any.
fn double(random: &mut Random) -> u64 {
    let pattern = match random.below(6) {
        0 => *random.pick(&CORNERS),
        1 => f64::to_bits(random.below(1000) as f64 / 10.0),
        2..=4 => modest(random),
        _ => random.number() % INFINITE,
    };
    sign(random) | pattern
}

/// From a thousandth to a thousand, or so.
fn modest(random: &mut Random) -> u64 {
    ONE + (random.below(21) as u64) * (1 << 52) - (10 << 52) + (random.number() >> 12)
}

/// A product that lies half-way between two doubles: the low bits of its significand are a one and zeros.
fn product_tie(random: &mut Random) -> (Calibration, u32) {
    loop {
        let reading = (random.number() as u32 >> random.below(29)) | 3;
        let lost = 32 - reading.leading_zeros() - random.below(2) as u32;
        let low = inverse(reading) << (lost - 1) & ((1 << lost) - 1);
        let significand = (1 << 52 | random.number() >> 12) >> lost << lost | low;
        let product = u128::from(significand) * u128::from(reading);
        if 128 - product.leading_zeros() == 53 + lost {
            let gain = sign(random) | (modest(random) >> 52 << 52) | (significand & !(1 << 52));
            let offset = *random.pick(&[0, SIGN, ONE]);
            return (Calibration { gain, offset }, reading);
        }
    }
}

/// The inverse of an odd number modulo two to the 64: each step doubles the bits that are right, from three on.
fn inverse(odd: u32) -> u64 {
    let odd = u64::from(odd);
    (0..5).fold(odd, |inverse, _| {
        inverse.wrapping_mul(2u64.wrapping_sub(odd.wrapping_mul(inverse)))
    })
}

/// An exact product of an odd number of halves of the offset's last place.
fn sum_tie(random: &mut Random) -> (Calibration, u32) {
    let offset = modest(random);
    let half = (offset >> 52) - 53;
    let reading = (random.number() as u32 >> random.between(8, 31)) | 1;
    let calibration = Calibration {
        gain: sign(random) | half << 52,
        offset: sign(random) | offset,
    };
    (calibration, reading)
}

/// An offset that takes the product away, all of it or all but a few last places: what the first rounding lost shows.
fn nearly_cancelled(random: &mut Random) -> (Calibration, u32) {
    let reading = some_reading(random);
    let gain = sign(random) | modest(random);
    let product = f64::from(reading) * f64::from_bits(gain);
    let offset = (-product).to_bits().wrapping_add(random.below(3) as u64);
    (Calibration { gain, offset }, reading)
}

/// The greatest double or a neighbour as the product, and an offset that does or does not pass it, or that would bring
/// back what has passed.
fn around_the_greatest(random: &mut Random) -> (Calibration, u32) {
    let (gain, reading) = match random.below(2) {
        0 => {
            let power = random.below(32);
            (GREATEST - ((power as u64) << 52), 1 << power)
        }
        _ => {
            let reading = some_reading(random).max(1);
            let quotient = f64::from_bits(GREATEST) / f64::from(reading);
            let near = quotient.to_bits() + random.below(4) as u64;
            ((near - 1).min(GREATEST), reading)
        }
    };
    let half_a_place = 0x7C90_0000_0000_0000;
    let offset = match random.below(5) {
        0 => 0,
        1 => half_a_place,
        2 => half_a_place - 1,
        _ => SIGN | GREATEST,
    };
    let side = sign(random);
    let calibration = Calibration {
        gain: side ^ gain,
        offset: side ^ offset,
    };
    (calibration, reading)
}

/// Gain and offset below or around the least normal double.
fn subnormal(random: &mut Random) -> (Calibration, u32) {
    let mut small = || {
        let shift = 10 + random.below(50);
        sign(random) | (random.number() >> shift)
    };
    let (gain, offset) = (small(), small());
    let reading = random.number() as u32 >> random.between(0, 31);
    (Calibration { gain, offset }, reading)
}

/// Nothing but zeros, of either sign, where the sum takes its sign from both.
fn zero(random: &mut Random) -> (Calibration, u32) {
    let reading = some_reading(random);
    let gain = sign(random) | if reading == 0 { double(random) } else { 0 };
    let calibration = Calibration {
        gain,
        offset: sign(random),
    };
    (calibration, reading)
}
