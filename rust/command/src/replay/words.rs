//! Answers in words, each beside its call.

use std::io;

use super::script::Line;
use crate::names::{called, Names};
use crate::paint::Paint;
use crate::refusal::Refusal;

/// Columns that calls get at least and at most; a longer one pushes its answer to the right.
const COLUMNS: (usize, usize) = (18, 48);

pub fn beside(lines: &[Line], answers: &[String], names: &Names) -> String {
    let paint = Paint::on(&io::stdout());
    let longest = lines.iter().map(|line| line.call.chars().count()).max();
    let width = longest.unwrap_or(0).clamp(COLUMNS.0, COLUMNS.1);
    let mut answers = answers.iter();
    let mut told = String::new();
    for line in lines {
        let answer = line.framed().and_then(|_| answers.next());
        match answer {
            Some(answer) => told += &row(line, &in_words(answer, names), width, paint),
            // What a script says of its own answers stands beside the calls now.
            None if line.comment.starts_with("; ->") => {}
            None => told += &(paint.dim(&line.comment) + "\n"),
        }
    }
    told
}

/// The call, its answer, and the comment behind it; further lines of an answer stand below.
fn row(line: &Line, answer: &str, width: usize, paint: Paint) -> String {
    let mut parts = answer.split('\n').map(|part| {
        if part.starts_with("refused ") {
            paint.red(part)
        } else {
            part.to_string()
        }
    });
    let first = parts.next().unwrap_or_default();
    let mut row = format!("    {:<width$}  {first}", line.call);
    if !line.comment.is_empty() {
        row += &format!("  {}", paint.dim(&line.comment));
    }
    for part in parts {
        row += &format!("\n    {:<width$}  {part}", "");
    }
    row + "\n"
}

/// The words for a line that the proved program writes.
fn in_words(answer: &str, names: &Names) -> String {
    let words: Vec<&str> = answer.split(' ').collect();
    match words[..] {
        ["offer", "read", parameter, offset, _] => {
            format!(
                "offer: read {} @ {offset}",
                called(&names.parameters, parameter)
            )
        }
        ["offer", "write", parameter, offset, number] => {
            let parameter = called(&names.parameters, parameter);
            format!("offer: write {number} to {parameter} @ {offset}")
        }
        ["done", value, accesses] => done(value, accesses),
        ["variable", index] => format!("variable {index}"),
        ["none"] => "no variable has this name".to_string(),
        ["refused", number] => refused(number, ""),
        ["refused", number, register] => {
            refused(number, &format!("{}: ", called(&names.registers, register)))
        }
        ["record", ..] => state(&words, names),
        _ => answer.to_string(),
    }
}

/// A value has at most 11 characters; 16 are the digits of a double.
fn done(value: &str, accesses: &str) -> String {
    let ending = if accesses == "1" { "" } else { "es" };
    let value = match u64::from_str_radix(value, 16) {
        Ok(bits) if value.len() == 16 => format!("{} in units", f64::from_bits(bits)),
        _ => value.to_string(),
    };
    format!("done: {value}, in {accesses} access{ending}")
}

fn refused(number: &str, whose: &str) -> String {
    let refusal = number.parse().ok().and_then(Refusal::of);
    let words = refusal.map_or("", Refusal::words);
    format!("refused {number}: {whose}{words}")
}

/// `record NN .. marks M .. operation ..`, by name.
fn state(words: &[&str], names: &Names) -> String {
    let place = |word: &str| words.iter().position(|w| *w == word).unwrap_or(words.len());
    let (marks, operation) = (place("marks"), place("operation"));
    let record = &words[1..marks];
    let held: Vec<String> = record
        .iter()
        .enumerate()
        .map(|(at, number)| format!("{} 0x{number}", called(&names.registers, &at.to_string())))
        .collect();
    let half: Vec<String> = words[(marks + 1).min(operation)..operation]
        .iter()
        .enumerate()
        .filter(|(_, mark)| **mark != "0")
        .map(|(at, _)| called(&names.variables, &at.to_string()))
        .collect();
    format!(
        "record: {}\nhalf-written: {}\nin hand: {}",
        or_none(&held),
        or_none(&half),
        in_hand(words.get(operation + 1..).unwrap_or_default(), names)
    )
}

fn or_none(all: &[String]) -> String {
    if all.is_empty() {
        "none".to_string()
    } else {
        all.join(", ")
    }
}

fn in_hand(operation: &[&str], names: &Names) -> String {
    match operation {
        [part @ ("read" | "write"), variable, step, bits] => {
            let variable = called(&names.variables, variable);
            format!("the {part} of {variable}, {step} confirmed, bits {bits}")
        }
        _ => "nothing".to_string(),
    }
}

#[cfg(test)]
mod tests {
    use super::*;

    #[test]
    fn answers_are_told_in_words() {
        let strings = |words: &[&str]| words.iter().map(|w| w.to_string()).collect();
        let names = Names {
            device: "scoring".to_string(),
            parameters: strings(&["base"]),
            registers: strings(&["high", "low"]),
            variables: strings(&["score", "final"]),
        };
        for (answer, words) in [
            ("opened", "opened"),
            ("offer read 0 1 0x00", "offer: read base @ 1"),
            ("offer write 0 1 0xA3", "offer: write 0xA3 to base @ 1"),
            ("done -3 1", "done: -3, in 1 access"),
            ("done 4092540000000000 2", "done: 1173 in units, in 2 accesses"),
            ("none", "no variable has this name"),
            ("refused 28", "refused 28: the variable is half-written"),
            (
                "refused 52 0",
                "refused 52: high: the number read differs from a fixed bit of its register's read mask",
            ),
            (
                "record 05 A3 marks 1 0 operation write 0 1 1443",
                "record: high 0x05, low 0xA3\nhalf-written: score\nin hand: the write of score, 1 confirmed, bits 1443",
            ),
            (
                "record marks operation idle",
                "record: none\nhalf-written: none\nin hand: nothing",
            ),
        ] {
            assert_eq!(in_words(answer, &names), words);
        }
    }
}
