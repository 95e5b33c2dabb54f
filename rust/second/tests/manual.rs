//! The examples of docs/DEVIL.md: the second implementation answers what the manual says.

use house::examples::{examples, Example};
use house::tree::root;
use second::replay::{parse, Session};
use second::{
    DEPTH, NAME_BYTES, PARAMETERS, PIECES, RANGES, REGISTERS, RESERVED, TEXT_BYTES, VARIABLES,
};

/// What an example's description and its calls are answered with.
fn answers(example: &Example) -> Vec<String> {
    let verdict = second::load(example.text.as_bytes()).to_string();
    let mut answers = vec![verdict];
    if let Ok(mut session) = Session::new(example.text.as_bytes()) {
        let perform = |(call, _): &(String, String)| match parse(call.as_bytes()) {
            Some(call) => session.perform(&call),
            None => "unknown".to_string(),
        };
        answers.extend(example.calls.iter().map(perform));
    }
    answers
}

#[test]
fn the_manual_says_what_is_answered() {
    let manual = std::fs::read_to_string(root().join("docs/DEVIL.md")).unwrap();
    let all = examples(&manual);
    let mut read = 0;
    let mut wrong = Vec::new();
    for example in &all {
        let answers = answers(example);
        let said = example.answers();
        read += said.len();
        if answers != said {
            wrong.push(format!(
                "docs/DEVIL.md, line {}: {answers:#?}",
                example.line
            ));
        }
    }
    assert!(all.len() > 10 && read > 60, "{read} answers read");
    assert!(wrong.is_empty(), "answered is\n{}", wrong.join("\n"));
}

/// The lines of a section of the manual.
fn section<'m>(manual: &'m str, heading: &str) -> Vec<&'m str> {
    let lines = manual.lines().skip_while(|l| *l != heading).skip(1);
    lines.take_while(|l| !l.starts_with("## ")).collect()
}

#[test]
fn the_manual_names_the_sizes() {
    let manual = std::fs::read_to_string(root().join("docs/DEVIL.md")).unwrap();
    let said = section(&manual, "## Sizes").into_iter().filter_map(|row| {
        let digits = row.split('|').nth(2)?.split(';').next()?.replace(',', "");
        digits.split_whitespace().next()?.parse::<usize>().ok()
    });
    let sizes = [
        TEXT_BYTES, NAME_BYTES, PARAMETERS, RANGES, 255, REGISTERS, VARIABLES, PIECES, 32, DEPTH,
    ];
    assert_eq!(said.collect::<Vec<_>>(), sizes);
}

#[test]
fn the_manual_names_the_reserved_words() {
    let manual = std::fs::read_to_string(root().join("docs/DEVIL.md")).unwrap();
    let text = section(&manual, "## Text").join(" ");
    let (_, list) = text.split_once("no names:").expect("the list of words");
    let words = list.split('.').next().unwrap().split_whitespace();
    let mut reserved = RESERVED.to_vec();
    reserved.sort_unstable();
    assert_eq!(words.collect::<Vec<_>>(), reserved);
}
