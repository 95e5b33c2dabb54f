//! `check` and `explain`.

use std::fs;

use crate::started::{fed, number_and_position, refused_texts, root, run, shell, Ended};

const SCORING: &str = "boards/scoring.devil: accepted: 1 parameter, 5 registers, 6 variables\n";

#[test]
fn a_good_description_is_accepted() {
    let want = Ended {
        code: 0,
        out: SCORING.to_string(),
        err: String::new(),
    };
    assert_eq!(run(&["check", "boards/scoring.devil"]), want);
}

#[test]
fn every_board_is_accepted() {
    let ended = shell("./desfanuk check boards/*.devil");
    let boards = fs::read_dir(root().join("boards")).expect("the boards");
    let boards = boards.filter(|entry| {
        let name = entry.as_ref().expect("a file").file_name();
        name.to_string_lossy().ends_with(".devil")
    });
    assert_eq!((ended.code, ended.out.lines().count()), (0, boards.count()));
    assert!(ended.out.lines().all(|line| line.contains(": accepted: ")));
}

/// The first line leads an editor to where the proved program says it is.
#[test]
fn a_refusal_has_its_file_line_and_column() {
    for (path, told) in refused_texts() {
        let (number, position) = number_and_position(&told);
        let first = format!("{path}:{position}: refused {number}: ");
        for command in ["check", "explain"] {
            let ended = run(&[command, &path]);
            assert_eq!((ended.code, ended.err.as_str()), (1, ""), "{path}");
            assert!(ended.out.starts_with(&first), "{first} {}", ended.out);
        }
    }
}

/// `check` has one line for a file, and it tells what breaks the rule.
#[test]
fn a_line_tells_the_cause() {
    for (path, told) in refused_texts() {
        let mut causes = told.lines().skip_while(|line| !line.starts_with("rule "));
        let cause = causes.nth(1).expect("a cause or a blank line");
        let ended = run(&["check", &path]);
        assert_eq!(ended.out.lines().count(), 1, "{path}: {}", ended.out);
        assert!(ended.out.contains(cause), "{path}: {}", ended.out);
    }
}

#[test]
fn the_gravest_of_several_counts() {
    let (good, bad, none) = (
        "boards/scoring.devil",
        "rust/compare/explain/r16.devil",
        "nothing",
    );
    for (files, code, lines) in [
        (vec![good, good], 0, 2),
        (vec![good, bad], 1, 2),
        (vec![bad, good], 1, 2),
        (vec![none, good, bad], 2, 2),
        (vec![bad, none], 2, 1),
    ] {
        let ended = run(&[vec!["check"], files.clone()].concat());
        assert_eq!(
            (ended.code, ended.out.lines().count()),
            (code, lines),
            "{files:?}"
        );
        assert_eq!(ended.err.is_empty(), code < 2, "{files:?}");
    }
}

#[test]
fn standard_input_is_a_dash() {
    let text = fs::read(root().join("boards/scoring.devil")).expect("the board");
    let ended = fed(&["check", "-"], &text);
    assert_eq!(
        (ended.code, ended.out),
        (0, SCORING.replace("boards/scoring.devil", "-"))
    );
    let ended = fed(&["explain", "-"], b"device");
    assert!(ended.out.starts_with("-:1:7: refused 4: "), "{}", ended.out);
    assert_eq!(ended.code, 1);
}

#[test]
fn verdicts_as_json() {
    let ended = run(&[
        "check",
        "--json",
        "boards/scoring.devil",
        "rust/compare/explain/r16.devil",
    ]);
    let want = concat!(
        r#"{"file":"boards/scoring.devil","verdict":"accepted","#,
        r#""counts":{"parameters":1,"registers":5,"variables":6}}"#,
        "\n",
        r#"{"file":"rust/compare/explain/r16.devil","verdict":"refused","number":16,"place":44,"#,
        r#""line":3,"column":14,"#
    );
    assert_eq!(ended.code, 1);
    assert!(ended.out.starts_with(want), "{}", ended.out);
    assert!(ended.out.ends_with("]}\n"), "{}", ended.out);
}

/// What the proved program draws, behind a line with the verdict.
#[test]
fn a_good_description_is_explained_by_its_map() {
    let ended = run(&["explain", "boards/lamp.devil"]);
    let stored = root().join("rust/compare/explain/lamp.txt");
    let stored = fs::read_to_string(stored).expect("its map");
    let (_, map) = stored.split_once('\n').expect("the verdict");
    let first = "boards/lamp.devil: accepted: 2 parameters, 3 registers, 3 variables\n";
    assert_eq!((ended.code, ended.out), (0, format!("{first}{map}")));
}
