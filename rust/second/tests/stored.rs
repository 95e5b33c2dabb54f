//! The stored cases: the papers' answers, and the files as they lie in `cases/`.

use std::fs;
use std::path::Path;

use second::{load, outline, pieces, replay, scan, stored, Outline, Token, RESERVED};

#[test]
fn the_papers_answers() {
    let mut wrong = Vec::new();
    for case in stored::texts() {
        let verdict = load(&case.text).to_string();
        if case.expected.as_ref().is_some_and(|line| *line != verdict) {
            wrong.push(format!("{}: {verdict}, not {:?}", case.name, case.expected));
        }
    }
    assert!(wrong.is_empty(), "{}", wrong.join("\n"));
}

#[test]
fn the_scripts_answers() {
    for script in stored::scripts() {
        let written = replay::replay(&script.input());
        if let Some(answers) = script.expected {
            assert_eq!(written[1..], answers, "{}", script.name);
        }
    }
}

#[test]
fn the_answers_to_pieces() {
    for script in stored::piece_scripts() {
        let written = pieces::script::run(&script.lines);
        assert_eq!(written, script.expected, "{}", script.name);
    }
}

/// `make_cases` would write the very files that are stored, and `cases/` holds no others.
#[test]
fn the_files_are_those_of_the_lists() {
    let root = Path::new(env!("CARGO_MANIFEST_DIR")).join("../..");
    let files = stored::files().unwrap();
    for (path, bytes) in &files {
        assert!(
            fs::read(root.join(path)).unwrap() == *bytes,
            "{path} is stale: run make_cases"
        );
    }
    let count = |folder: &Path| {
        let entries = fs::read_dir(folder).unwrap();
        entries
            .filter(|entry| entry.as_ref().unwrap().path().is_file())
            .count()
    };
    let here = "rust/second/cases/";
    let home = root.join(here);
    let listed = files.iter().filter(|(path, _)| path.starts_with(here));
    assert_eq!(count(&home), listed.count());
}

/// The texts that are shown token by token have every reserved word, every sign, every kind of
/// token, and refusals 3, 4 and 5; and they are few enough for one input of the proved program.
#[test]
fn every_token_is_shown() {
    let mut words = Vec::new();
    let mut signs = Vec::new();
    let (mut names, mut numbers, mut bits) = (0, 0, 0);
    let mut refused = [0; 6];
    for text in stored::short_texts() {
        let mut at = 0;
        while let Ok(lexeme) = scan(&text, at) {
            at = lexeme.end;
            match lexeme.token {
                Token::Name => names += 1,
                Token::Word(word) if !words.contains(&word) => words.push(word),
                Token::Sign(sign) if !signs.contains(&sign) => signs.push(sign),
                Token::Word(_) | Token::Sign(_) => {}
                Token::Number(_) => numbers += 1,
                Token::Bits => bits += 1,
                Token::End => break,
            }
        }
        if let Outline::Refused(refusal) = outline(&text) {
            refused[usize::from(refusal.number)] += 1;
        }
    }
    assert_eq!((words.len(), signs.len()), (RESERVED.len(), 30));
    assert!(names > 0 && numbers > 0 && bits > 0);
    assert!(refused[3] > 0 && refused[4] > 0 && refused[5] > 0);
    let sizes = stored::files().unwrap();
    let input = sizes.iter().find(|(path, _)| path == "crates/tokens/stdin");
    assert!(input.unwrap().1.len() < 200_000);
}

/// Every refusal of loading stands among the stored verdicts.
#[test]
fn every_number_is_there() {
    let mut seen = [0; 17];
    for case in stored::texts() {
        match load(&case.text) {
            second::Verdict::Refused { number, .. } => seen[usize::from(number)] += 1,
            second::Verdict::Accepted { .. } => seen[0] += 1,
        }
    }
    for (number, count) in seen.iter().enumerate() {
        assert_eq!(*count > 0, number != 1, "refusal {number}: {count} cases");
    }
}

/// Every answer of a call, and every refusal that sound tables leave, stands among the stored scripts; and they fit
/// into the proved program's space, to which the whole input is read.
#[test]
fn every_answer_is_there() {
    let files = stored::files().unwrap();
    let file = |name: &str| &files.iter().find(|(path, _)| path == name).unwrap().1;
    assert!(file("crates/replay/stdin").len() < 1 << 20);
    let output = String::from_utf8(file("crates/replay/stdout").clone()).unwrap();
    for start in [
        "opened",
        "offer read",
        "offer write",
        "done",
        "abandoned",
        "variable",
        "none",
        "record",
        "lent",
        "held",
        "unknown",
        "refused 4",
        "refused 21",
        "refused 22",
        "refused 23",
        "refused 24",
        "refused 25",
        "refused 26",
        "refused 27",
        "refused 28",
        "refused 52",
        "refused 53",
        "refused 54",
        "refused 55",
    ] {
        let count = output
            .lines()
            .filter(|line| line.starts_with(start))
            .count();
        assert!(count > 0, "{start}");
    }
    for digits in [2, 4, 8] {
        let wide = |line: &&str| line.rsplit_once(" 0x").is_some_and(|n| n.1.len() == digits);
        assert!(output.lines().any(|line| wide(&line)), "{digits} digits");
    }
}

/// So does every answer to a piece, among scripts that fit into the proved program's space.
#[test]
fn every_answer_to_a_piece_is_there() {
    let files = stored::files().unwrap();
    let file = |name: &str| &files.iter().find(|(path, _)| path == name).unwrap().1;
    assert!(file("crates/arrivals/stdin").len() < 1 << 20);
    let output = String::from_utf8(file("crates/arrivals/stdout").clone()).unwrap();
    let mut starts = vec!["more".to_string(), "lent".to_string()];
    starts.extend(["unknown".to_string(), "accepted".to_string()]);
    starts.extend((1..=16).map(|number| format!("refused {number} ")));
    for start in starts {
        assert!(
            output.lines().any(|line| line.starts_with(&start)),
            "{start}"
        );
    }
}

#[test]
fn names_are_told_apart() {
    let mut names: Vec<String> = stored::texts().into_iter().map(|case| case.name).collect();
    names.extend(stored::scripts().into_iter().map(|script| script.name));
    let scripts = stored::piece_scripts().into_iter();
    names.extend(scripts.map(|script| script.name));
    names.extend(stored::readings().into_iter().map(|case| case.name));
    let count = names.len();
    names.sort();
    names.dedup();
    assert_eq!(names.len(), count);
}
