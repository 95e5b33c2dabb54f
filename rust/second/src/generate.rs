//! Generated descriptions, damaged texts, tables and runs of calls. Everything follows from a seed.

use std::collections::BTreeMap;

use crate::replay::{Call, Session};

mod broken;
mod lines;
mod pieces;
mod random;
mod runs;
mod source;
mod tables;
mod units;
mod valid;
mod wide;
mod written;

pub use broken::{broken, damaged, random_bytes};
pub use lines::damaged_line;
pub use pieces::pieces;
pub use random::Random;
pub use runs::{calibrated_run, every_step, run};
pub use source::{spell, Source, Style};
pub use tables::{damaged_tables, sound_tables, TableSet};
pub use units::{calibration, reading};
pub use valid::{source, valid, Shape};
pub use wide::{bits_above, number_for, some_number};
pub use written::written;

/// A text of any kind: most are valid or break one rule on purpose, the others are damaged without
/// a plan, and a few are mere bytes.
pub fn text(random: &mut Random) -> Vec<u8> {
    match random.below(24) {
        0..=5 => valid(random),
        6..=17 => {
            let rule = *random.pick(&BROKEN);
            broken(random, rule)
        }
        18..=22 => damaged(random),
        _ => random_bytes(random),
    }
}

/// The rules that texts break on purpose; those that are broken in many ways come more often.
const BROKEN: [u8; 22] = [
    2, 3, 4, 5, 6, 7, 8, 9, 9, 10, 11, 11, 11, 12, 12, 12, 12, 13, 13, 14, 15, 16,
];

/// How often each refusal came (accepted is 0), over so many texts.
pub fn distribution(seed: u64, count: usize) -> [usize; 17] {
    let mut random = Random::new(seed);
    let mut seen = [0; 17];
    for _ in 0..count {
        seen[verdict_number(&text(&mut random))] += 1;
    }
    seen
}

/// How often each kind of answer came to the calls of so many runs: its first word, or a refusal's
/// number. A run is one of `run`, or of `calibrated_run`.
pub fn answers(
    seed: u64,
    runs: usize,
    run: fn(&mut Random, &[u8], usize) -> Vec<Call>,
) -> BTreeMap<String, usize> {
    let mut random = Random::new(seed);
    let mut seen = BTreeMap::new();
    for _ in 0..runs {
        let text = valid(&mut random);
        let calls = run(&mut random, &text, 60);
        let Ok(mut session) = Session::new(&text) else {
            continue;
        };
        for call in calls {
            *seen.entry(kind(&session.perform(&call))).or_insert(0) += 1;
        }
    }
    seen
}

/// The kind of an answer: its first word, or a refusal's number.
pub fn kind(answer: &str) -> String {
    let mut words = answer.split(' ');
    match (words.next(), words.next()) {
        (Some("refused"), Some(number)) => number.to_string(),
        (first, _) => first.unwrap_or_default().to_string(),
    }
}

/// The number of a text's refusal; 0 when it is accepted.
pub fn verdict_number(text: &[u8]) -> usize {
    match crate::load(text) {
        crate::Verdict::Accepted { .. } => 0,
        crate::Verdict::Refused { number, .. } => usize::from(number),
    }
}
