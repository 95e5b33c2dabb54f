//! `tokens`.

use crate::started::{fed, number_and_position, refused_texts, run};

#[test]
fn each_token_has_a_line() {
    let ended = fed(&["tokens", "-"], b"device d\n  ('.*' /* no */ 0x1F");
    let want = "-:2:4: refused 4: ";
    let rows =
        "1:1      word    device\n1:8      name    d\n2:3      sign    (\n2:4      bits    '.*'\n\
                2:18     number  0x1F\n2:22     end\n";
    assert_eq!(ended.code, 1);
    assert!(ended.out.starts_with(want), "{}", ended.out);
    assert!(ended.out.ends_with(&format!("\n{rows}")), "{}", ended.out);
}

#[test]
fn a_text_that_reads_is_good() {
    let ended = run(&["tokens", "boards/scoring.devil"]);
    assert_eq!((ended.code, ended.err.as_str()), (0, ""));
    assert!(ended.out.contains("name    score\n"), "{}", ended.out);
    assert!(!ended.out.contains("refused"), "{}", ended.out);
}

/// Only what stops the reading, refusals 3 to 5, is told: the rules are for texts that read.
#[test]
fn reading_is_what_is_told() {
    for (path, told) in refused_texts() {
        let (number, position) = number_and_position(&told);
        let ended = run(&["tokens", &path]);
        if ["3", "4", "5"].contains(&number) {
            let first = format!("{path}:{position}: refused {number}: ");
            assert_eq!(ended.code, 1, "{path}");
            assert!(ended.out.starts_with(&first), "{first} {}", ended.out);
        } else {
            assert_eq!(ended.code, 0, "{path}");
        }
    }
}
