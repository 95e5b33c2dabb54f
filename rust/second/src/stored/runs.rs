//! Scripts that no paper writes: lives of the boards, and generated ones.

use super::Script;
use crate::generate::{calibrated_run, damaged_line, every_step, run, valid, Random};
use crate::replay::Call;

/// Texts longer than this add bytes to the stored files and nothing else.
const LONGEST: usize = 700;

pub fn scripts() -> Vec<Script> {
    let mut scripts = lives();
    let mut random = Random::new(16);
    for number in 0..120 {
        let text = short_text(&mut random);
        let length = random.between(5, 60);
        let calls = run(&mut random, &text, length);
        scripts.push(generated("run", number, text, &calls));
    }
    for number in 0..60 {
        let text = short_text(&mut random);
        let calls = every_step(&mut random, &text);
        scripts.push(generated(
            "every-step",
            number,
            text,
            &calls[..calls.len().min(80)],
        ));
    }
    for number in 0..120 {
        let text = short_text(&mut random);
        let length = random.between(5, 40);
        let calls = run(&mut random, &text, length);
        scripts.push(damaged(&mut random, "damaged", number, text, &calls));
    }
    scripts.extend(in_units());
    scripts
}

/// Runs whose reads are mostly in units; in every third of them some lines are damaged.
fn in_units() -> Vec<Script> {
    let mut random = Random::new(10);
    let mut scripts = Vec::new();
    for number in 0..60 {
        let text = short_text(&mut random);
        let length = random.between(5, 60);
        let calls = calibrated_run(&mut random, &text, length);
        scripts.push(match number % 3 {
            0 => damaged(&mut random, "calibrated", number, text, &calls),
            _ => generated("calibrated", number, text, &calls),
        });
    }
    scripts
}

fn short_text(random: &mut Random) -> Vec<u8> {
    loop {
        let text = valid(random);
        if text.len() <= LONGEST {
            return text;
        }
    }
}

fn generated(kind: &str, number: usize, text: Vec<u8>, calls: &[Call]) -> Script {
    Script {
        name: format!("generated-{kind}-{number}"),
        text,
        lines: calls
            .iter()
            .flat_map(|call| format!("{call}\n").into_bytes())
            .collect(),
        expected: None,
    }
}

/// With every third line damaged, or so.
fn damaged(
    random: &mut Random,
    kind: &str,
    number: usize,
    text: Vec<u8>,
    calls: &[Call],
) -> Script {
    let mut script = generated(kind, number, text, &[]);
    for call in calls {
        let line = call.to_string().into_bytes();
        let damaged = random.one_in(3);
        script.lines.extend(match damaged {
            true => damaged_line(random, line),
            false => line,
        });
        script.lines.push(b'\n');
    }
    script
}

/// The scripts that lie beside a board's description. Their comments `; -> ..` are the answers.
fn lives() -> Vec<Script> {
    macro_rules! board {
        ($name:literal) => {
            life(
                $name,
                include_str!(concat!("../../../../boards/", $name, ".devil")),
                include_str!(concat!("../../../../boards/", $name, ".script")),
            )
        };
    }
    vec![
        board!("scoring"),
        board!("lamp"),
        board!("ide"),
        board!("pci"),
    ]
}

fn life(board: &str, text: &str, lines: &str) -> Script {
    let answers = lines.lines().filter_map(|line| line.strip_prefix("; -> "));
    Script {
        expected: Some(answers.map(str::to_string).collect()),
        ..Script::open(&format!("{board}-board"), text, lines)
    }
}
