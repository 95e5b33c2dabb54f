//! Readings in units: the proved program against ordinary Rust arithmetic on 100,000 generated records, and the proved
//! calls against the second implementation's on generated runs.

use compare::both::Both;
use compare::programs::written;
use compare::seen::Seen;
use second::generate::{calibrated_run, calibration, reading, valid, Random, TableSet};
use second::replay::Call;
use second::{load, tables, units, Verdict};

/// What the program writes for a record, by the processor's own doubles.
fn ordinary(gain: f64, offset: f64, reading: u32) -> String {
    if !gain.is_finite() || !offset.is_finite() {
        return "refused 53".to_string();
    }
    let product = f64::from(reading) * gain;
    let sum = product + offset;
    if !product.is_finite() || !sum.is_finite() {
        return "refused 54".to_string();
    }
    format!("{:016X}", sum.to_bits())
}

#[test]
fn a_hundred_thousand_records() {
    let mut random = Random::new(1001);
    let mut input = Vec::new();
    let mut want = Vec::new();
    for _ in 0..100_000 {
        let (calibration, reading) = reading(&mut random);
        input.extend(units::record(calibration, reading));
        let gain = f64::from_bits(calibration.gain);
        let offset = f64::from_bits(calibration.offset);
        want.push(ordinary(gain, offset, reading));
    }
    assert_eq!(units::readings(&input), want);
    // Most of a record more writes nothing.
    input.extend([0; 19]);
    let lines = written("readings", &input);
    assert!(lines.lines().eq(want), "the proved program");
}

/// A station over a text.
fn station(random: &mut Random, text: &[u8]) -> Both {
    let Verdict::Accepted { description } = load(text) else {
        panic!("a valid text is accepted");
    };
    let (parameters, registers, variables) = tables(&description);
    let (record, marks) = (description.registers.len(), description.variables.len());
    let set = TableSet {
        parameters,
        registers,
        variables,
    };
    Both::new(random, set, record, marks)
}

#[test]
fn generated_runs() {
    let mut random = Random::new(1002);
    let mut seen = Seen::default();
    for _ in 0..300 {
        let text = valid(&mut random);
        let mut both = station(&mut random, &text);
        for call in calibrated_run(&mut random, &text, 400) {
            if let Some(answer) = both.perform(&call) {
                seen.answer(answer);
            }
        }
    }
    let answers = ["measured", "refused 52", "refused 53", "refused 54"];
    seen.require("runs in units", answers, 100);
}

#[test]
fn any_calibration_at_a_confirmation() {
    let mut random = Random::new(1003);
    let mut seen = Seen::default();
    for _ in 0..300 {
        let text = valid(&mut random);
        let mut both = station(&mut random, &text);
        for call in calibrated_run(&mut random, &text, 400) {
            let answer = match call {
                Call::Confirm(number) if random.below(2) == 0 => {
                    let lent = calibration(&mut random);
                    Some(both.confirm_in_units(number, lent))
                }
                call => both.perform(&call),
            };
            answer.into_iter().for_each(|answer| seen.answer(answer));
        }
    }
    let answers = [
        "measured",
        "done",
        "offer",
        "refused 24",
        "refused 53",
        "refused 54",
    ];
    seen.require("any calibration", answers, 100);
}
