//! Readings in units, against exact arithmetic: no operation on doubles is used here but in what is tested.

use std::collections::BTreeMap;

use second::generate::{answers, calibrated_run, reading, valid, Random};
use second::replay::{Call, Session};
use second::units::{readings, record};
use second::{stored, Calibration};

/// An integer multiple of the least double, two to the -1074, in two's complement. Every finite double is one, and so
/// is every product and sum of such a one and a reading.
#[derive(Clone, PartialEq)]
struct Exact([u64; 36]);

/// A double's pattern, and how it was come by.
struct Rounded {
    bits: u64,
    exact: bool,
    half_way: bool,
}

fn negative(bits: u64) -> bool {
    bits >> 63 == 1
}

impl Exact {
    /// A finite double times a whole number.
    fn product(bits: u64, factor: i64) -> Exact {
        let fraction = bits & ((1 << 52) - 1);
        let (significand, shift) = match bits >> 52 & 0x7FF {
            0 => (fraction, 0),
            exponent => (fraction | 1 << 52, exponent as usize - 1),
        };
        let magnitude = u128::from(significand) * u128::from(factor.unsigned_abs());
        let mut limbs = [0; 36];
        for bit in (0..128).filter(|bit| magnitude >> bit & 1 == 1) {
            let at = bit + shift;
            limbs[at / 64] |= 1 << (at % 64);
        }
        match negative(bits) != (factor < 0) {
            true => Exact(limbs).negated(),
            false => Exact(limbs),
        }
    }

    fn plus(&self, other: &Exact) -> Exact {
        let mut carry = 0;
        let mut sum = [0; 36];
        for (limb, (a, b)) in sum.iter_mut().zip(self.0.iter().zip(&other.0)) {
            let wide = u128::from(*a) + u128::from(*b) + carry;
            *limb = wide as u64;
            carry = wide >> 64;
        }
        Exact(sum)
    }

    fn negated(&self) -> Exact {
        let mut one = [0; 36];
        one[0] = 1;
        Exact(self.0.map(|limb| !limb)).plus(&Exact(one))
    }

    fn bit(&self, at: usize) -> bool {
        self.0[at / 64] >> (at % 64) & 1 == 1
    }

    /// The nearest double, of two the even one; `None` past the greatest. A zero has the sign that is given.
    fn rounded(&self, negative_zero: bool) -> Option<Rounded> {
        let minus = self.bit(36 * 64 - 1);
        let magnitude = if minus { self.negated() } else { self.clone() };
        let length = (0..36 * 64).rev().find(|at| magnitude.bit(*at));
        let Some(top) = length else {
            let bits = u64::from(negative_zero) << 63;
            return Some(Rounded {
                bits,
                exact: true,
                half_way: false,
            });
        };
        let lost = top.saturating_sub(52);
        let kept = (lost..=top).rev();
        let significand = kept.fold(0u64, |kept, at| kept << 1 | u64::from(magnitude.bit(at)));
        let half = lost > 0 && magnitude.bit(lost - 1);
        let less = lost > 1 && (0..lost - 1).any(|at| magnitude.bit(at));
        let up = half && (less || significand & 1 == 1);
        // The pattern of a whole multiple is its number, and each power of two lost adds one to the exponent; so a
        // carry out of the significand does right by itself.
        let bits = significand + u64::from(up) + ((lost as u64) << 52);
        (bits < 0x7FF << 52).then_some(Rounded {
            bits: u64::from(minus) << 63 | bits,
            exact: !half && !less,
            half_way: half && !less,
        })
    }
}

/// What the papers give for a reading, and what it is an example of.
fn expected(calibration: Calibration, reading: i64) -> (String, Vec<&'static str>) {
    let Calibration { gain, offset } = calibration;
    let finite = |bits: u64| bits >> 52 & 0x7FF != 0x7FF;
    if !finite(gain) || !finite(offset) {
        return ("refused 53".to_string(), vec!["53"]);
    }
    let zero_sign = negative(gain) != (reading < 0);
    let whole = Exact::product(gain, reading);
    let once = whole.plus(&Exact::product(offset, 1)).rounded(false);
    let Some(product) = whole.rounded(zero_sign) else {
        let mut kinds = vec!["54 of the product"];
        kinds.extend(once.map(|_| "54 of the product alone"));
        return ("refused 54".to_string(), kinds);
    };
    let both_negative = negative(product.bits) && negative(offset);
    let exact_sum = Exact::product(product.bits, 1).plus(&Exact::product(offset, 1));
    let Some(sum) = exact_sum.rounded(both_negative) else {
        return ("refused 54".to_string(), vec!["54 of the sum"]);
    };
    let mut kinds = Vec::new();
    for (is, kind) in [
        (product.exact, "an exact product"),
        (!product.exact, "a rounded product"),
        (product.half_way, "a product half-way"),
        (sum.exact, "an exact sum"),
        (!sum.exact, "a rounded sum"),
        (sum.half_way, "a sum half-way"),
        (sum.bits == 0, "zero"),
        (sum.bits == 1 << 63, "minus zero"),
        (
            sum.bits << 1 >> 53 == 0 && sum.bits << 1 != 0,
            "a subnormal",
        ),
        (
            sum.bits << 1 != 0 && once.is_some_and(|once| once.bits != sum.bits),
            "rounding once differs",
        ),
        (negative(sum.bits), "a negative result"),
    ] {
        kinds.extend(is.then_some(kind));
    }
    (format!("{:016X}", sum.bits), kinds)
}

const KINDS: [&str; 15] = [
    "53",
    "54 of the product",
    "54 of the product alone",
    "54 of the sum",
    "an exact product",
    "a rounded product",
    "a product half-way",
    "an exact sum",
    "a rounded sum",
    "a sum half-way",
    "zero",
    "minus zero",
    "a subnormal",
    "rounding once differs",
    "a negative result",
];

/// Every line is the one that exact arithmetic gives, and every kind of record comes once in a hundred.
#[test]
fn generated_records() {
    let mut random = Random::new(10);
    let mut seen: BTreeMap<&str, usize> = BTreeMap::new();
    let count = 20_000;
    for _ in 0..count {
        let (calibration, reading) = reading(&mut random);
        let (line, kinds) = expected(calibration, i64::from(reading));
        let written = readings(&record(calibration, reading));
        assert_eq!(written, [line], "{calibration:X?} {reading}");
        for kind in kinds {
            *seen.entry(kind).or_insert(0) += 1;
        }
    }
    for kind in KINDS {
        let times = seen.get(kind).copied().unwrap_or(0);
        assert!(100 * times >= count, "{kind}: {seen:#?}");
    }
}

/// The stored records too, and every kind stands among them.
#[test]
fn stored_records() {
    let mut seen = Vec::new();
    for case in stored::readings() {
        let (line, kinds) = expected(case.calibration, i64::from(case.reading));
        assert_eq!(case.calibration.line(case.reading), line, "{}", case.name);
        if let Some(expected) = case.expected {
            assert_eq!(expected, line, "{}", case.name);
            seen.extend(kinds);
        }
    }
    for kind in KINDS {
        assert!(seen.contains(&kind), "{kind}");
    }
}

/// A read in units makes the accesses of a plain one, and its done gives the plain value in units: two stations over
/// one text, the other of which reads plainly, go the same way.
#[test]
fn a_calibrated_read_is_the_plain_one_in_units() {
    let mut random = Random::new(11);
    let (mut done, mut refused) = (0, 0);
    for _ in 0..150 {
        let text = valid(&mut random);
        let mut session = Session::new(&text).unwrap();
        let mut plain = Session::new(&text).unwrap();
        let mut calibration = None;
        for call in calibrated_run(&mut random, &text, 80) {
            let before = session.perform(&Call::State);
            let answer = session.perform(&call);
            let left = session.perform(&Call::State);
            let got = match call {
                Call::Calibrated(..) if answer == "refused 53" => {
                    assert_eq!(left, before);
                    continue;
                }
                Call::Calibrated(variable, _) => plain.perform(&Call::Read(variable)),
                _ => plain.perform(&call),
            };
            assert_eq!(plain.perform(&Call::State), left, "{call}");
            let value = got
                .strip_prefix("done ")
                .and_then(|rest| rest.split_once(' '));
            match (calibration, &call, value) {
                (Some(units), Call::Confirm(_), Some((value, accesses))) => {
                    let (line, _) = expected(units, value.parse().unwrap());
                    if line == "refused 54" {
                        assert_eq!(answer, line);
                        refused += 1;
                    } else {
                        assert_eq!(answer, format!("done {line} {accesses}"));
                        done += 1;
                    }
                }
                _ => assert_eq!(answer, got, "{call}"),
            }
            calibration = match call {
                Call::Calibrated(_, units) if answer.starts_with("offer") => Some(units),
                Call::Hold(_) => None,
                _ if left.ends_with("operation idle") => None,
                _ => calibration,
            };
        }
    }
    assert!(done > 400 && refused > 100, "{done}, {refused}");
}

/// Sound tables leave no refusal 20; every other answer comes once in a hundred times.
#[test]
fn calibrated_runs_have_every_answer() {
    let seen = answers(10, 200, calibrated_run);
    let total: usize = seen.values().sum();
    for kind in [
        "opened",
        "offer",
        "done",
        "abandoned",
        "21",
        "22",
        "23",
        "24",
        "25",
        "26",
        "27",
        "28",
        "52",
        "53",
        "54",
        "55",
    ] {
        let count = seen.get(kind).copied().unwrap_or(0);
        assert!(100 * count >= total, "{kind}: {seen:?}");
    }
}
