//! The examples of docs/DEVIL.md: the proved programs `verdict` and `replay` answer what the manual says. `rt run` in
//! crates/verdict and crates/replay builds them. The second implementation is held to the same by its own test of this
//! name.

use compare::programs::{root, written};
use house::examples::{examples, Example};

/// What an example's description and its calls are answered with: a script of it, played.
fn answers(example: &Example) -> Vec<String> {
    let mut script = format!("text {}\n{}\n", example.text.len(), example.text);
    for (call, _) in &example.calls {
        script.push_str(call);
        script.push('\n');
    }
    let played = written("replay", script.as_bytes());
    played.lines().map(String::from).collect()
}

#[test]
fn the_manual_says_what_is_answered() {
    let manual = std::fs::read_to_string(root().join("docs/DEVIL.md")).unwrap();
    let all = examples(&manual);
    for example in &all {
        let at = format!("docs/DEVIL.md, line {}", example.line);
        let verdict = written("verdict", example.text.as_bytes());
        assert_eq!(verdict, format!("{}\n", example.verdict), "{at}");
        assert_eq!(answers(example), example.answers(), "{at}");
    }
    assert!(all.len() > 10, "{} examples", all.len());
}
