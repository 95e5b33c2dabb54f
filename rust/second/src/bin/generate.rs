//! Generated cases, from a seed.
//!
//! - `generate texts SEED COUNT`: so many framed texts
//! - `generate script SEED`: a framed text and calls over it, for `replay`
//! - `generate calibrated SEED`: one whose reads are mostly in units
//! - `generate pieces SEED COUNT`: so many framed scripts, each a text in pieces, for `pieces`
//! - `generate readings SEED COUNT`: so many records, for `readings`
//! - `generate distribution SEED COUNT`: how often each verdict comes among so many texts
//! - `generate answers SEED COUNT`: how often each answer comes in so many runs of calls

use std::io::{self, Write};

use second::generate::{
    answers, calibrated_run, distribution, every_step, pieces, reading, run, text, valid, Random,
};
use second::replay::Call;
use second::{frame, units};

fn main() -> io::Result<()> {
    let arguments: Vec<String> = std::env::args().skip(1).collect();
    let words: Vec<&str> = arguments.iter().map(String::as_str).collect();
    let written = match words[..] {
        ["script", seed] => script(&mut Random::new(number(seed))),
        ["calibrated", seed] => calibrated(&mut Random::new(number(seed))),
        [kind, seed, count] => many(kind, number(seed), number(count) as usize),
        _ => usage(),
    };
    io::stdout().lock().write_all(&written)
}

fn many(kind: &str, seed: u64, count: usize) -> Vec<u8> {
    let mut random = Random::new(seed);
    let mut to = Vec::new();
    match kind {
        "texts" => (0..count).for_each(|_| frame::write(&text(&mut random), &mut to)),
        "pieces" => (0..count).for_each(|_| {
            let mut script = Vec::new();
            let calls = pieces(&mut random);
            calls.iter().for_each(|call| call.write(&mut script));
            frame::write(&script, &mut to);
        }),
        "readings" => (0..count).for_each(|_| {
            let (calibration, reading) = reading(&mut random);
            to.extend(units::record(calibration, reading));
        }),
        "distribution" => {
            let seen = distribution(seed, count);
            to.extend(format!("accepted {}\n", seen[0]).bytes());
            for (refusal, count) in seen.iter().enumerate().skip(1) {
                to.extend(format!("refused {refusal}: {count}\n").bytes());
            }
        }
        "answers" => {
            for (kind, count) in answers(seed, count, run) {
                to.extend(format!("{kind}: {count}\n").bytes());
            }
        }
        _ => usage(),
    }
    to
}

fn script(random: &mut Random) -> Vec<u8> {
    let text = valid(random);
    let calls = match random.below(4) {
        0 => every_step(random, &text),
        _ => {
            let length = random.between(1, 200);
            run(random, &text, length)
        }
    };
    written(&text, &calls)
}

fn calibrated(random: &mut Random) -> Vec<u8> {
    let text = valid(random);
    let length = random.between(1, 200);
    let calls = calibrated_run(random, &text, length);
    written(&text, &calls)
}

/// A text and calls over it, as `replay` reads them.
fn written(text: &[u8], calls: &[Call]) -> Vec<u8> {
    let mut to = Vec::new();
    frame::write(text, &mut to);
    for call in calls {
        to.extend(format!("{call}\n").bytes());
    }
    to
}

fn number(word: &str) -> u64 {
    word.parse().unwrap_or_else(|_| {
        eprintln!("{word} is no number");
        std::process::exit(2)
    })
}

fn usage() -> ! {
    eprintln!("generate script|calibrated SEED");
    eprintln!("generate texts|pieces|readings|distribution|answers SEED COUNT");
    std::process::exit(2)
}
