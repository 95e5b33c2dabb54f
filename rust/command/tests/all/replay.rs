//! `replay`.

use std::fs;

use crate::started::{fed, root, run, scratch};

const BOARD: &str = "boards/scoring.devil";

/// Names, comments behind calls, tabs and blank lines; and the same with the ends of lines that Windows writes.
#[test]
fn people_write_scripts_by_name() {
    let script = include_str!("../score.script");
    let want = include_str!("../score.txt");
    for (name, text) in [
        ("lf.script", script.to_string()),
        ("crlf.script", script.replace('\n', "\r\n")),
    ] {
        let path = scratch(name, text.as_bytes());
        let ended = run(&["replay", BOARD, &path]);
        assert_eq!((ended.code, ended.err.as_str()), (0, ""), "{ended:?}");
        assert_eq!(ended.out, want, "{name}");
    }
    let ended = fed(&["replay", BOARD, "-"], script.as_bytes());
    assert_eq!((ended.code, ended.out.as_str()), (0, want));
}

#[test]
fn readings_in_units_are_told_as_numbers() {
    let script = b"open 0 0 0\ncalibrated light 0.5 1024\nconfirm 0x12\nconfirm 0xA0\n\
                   calibrated lit 0.5 1024\ncalibrated light nan 0\n";
    let ended = fed(&["replay", "boards/lamp.devil", "-"], script);
    assert_eq!(ended.code, 0, "{ended:?}");
    let told: Vec<&str> = ended
        .out
        .lines()
        .map(|line| line.split("  ").last().unwrap_or(""))
        .collect();
    let want = "gain or offset is not finite, or the variable is a `bool`";
    assert_eq!(told[3].trim(), "done: 1173 in units, in 2 accesses");
    assert!(
        told[4].ends_with(want) && told[5].ends_with(want),
        "{told:?}"
    );
}

/// The lives of the boards carry their answers, as the framed form gives them.
#[test]
fn framed_scripts_are_played_as_they_are() {
    for board in ["scoring", "lamp", "ide", "pci"] {
        let text =
            fs::read_to_string(root().join(format!("boards/{board}.devil"))).expect("a board");
        let script =
            fs::read_to_string(root().join(format!("boards/{board}.script"))).expect("its life");
        let answers: Vec<&str> = script
            .lines()
            .filter_map(|line| line.strip_prefix("; -> "))
            .collect();
        let input = format!("text {}\n{text}\n{script}", text.len());
        let ended = fed(&["replay", "--framed", "-"], input.as_bytes());
        assert_eq!((ended.code, ended.err.as_str()), (0, ""));
        let told: Vec<&str> = ended.out.lines().skip(1).collect();
        assert_eq!(told, answers, "{board}");
        let path = format!("boards/{board}.script");
        let ended = run(&["replay", &format!("boards/{board}.devil"), &path]);
        assert_eq!(ended.code, 0, "{ended:?}");
        let calls = ended
            .out
            .lines()
            .filter(|line| line.starts_with("    ") && !line.starts_with("     "));
        assert_eq!(calls.count(), answers.len(), "{board}");
    }
}

#[test]
fn input_without_a_frame_is_told() {
    let ended = fed(&["replay", "--framed", "-"], b"open 0 0 0 0 0\n");
    assert_eq!((ended.code, ended.out.as_str()), (2, ""));
    assert!(
        ended.err.contains("-:1: no text in a frame stands here"),
        "{}",
        ended.err
    );
}

/// Each line that is no call is told with its number, and nothing is played.
#[test]
fn what_is_not_understood_is_told_with_its_line() {
    let script =
        b"; a comment\nopen 0 0 0 0 0\nwrite scroe 1\n\nconfrim 0\nwrite score 0x\nread\npiece 3\n";
    let ended = fed(&["replay", BOARD, "-"], script);
    let want = "-:3: there is no variable `scroe`: did you mean `score`?\n\
                -:5: there is no call `confrim`: did you mean `confirm`?\n\
                -:6: `0x` is no value\n\
                -:7: it is written read V\n\
                -:8: `piece` is a call of scripts of pieces, which ./run arrivals plays\n\
                desfanuk: nothing was played\n";
    assert_eq!((ended.code, ended.out.as_str()), (2, ""));
    assert_eq!(ended.err, want);
}

#[test]
fn a_refused_description_is_not_played() {
    let ended = run(&[
        "replay",
        "rust/compare/explain/r16.devil",
        "boards/scoring.script",
    ]);
    let first = "rust/compare/explain/r16.devil:3:14: refused 16: ";
    assert_eq!(ended.code, 1);
    assert!(ended.out.starts_with(first), "{}", ended.out);
}
