//! The programs, over standard input and output.

use std::fs;
use std::io::Write;
use std::path::Path;
use std::process::{Command, Stdio};

/// What a program writes for an input, and whether it ends well.
fn run(program: &str, arguments: &[&str], input: &[u8]) -> (Vec<u8>, bool) {
    let mut child = Command::new(program)
        .args(arguments)
        .stdin(Stdio::piped())
        .stdout(Stdio::piped())
        .stderr(Stdio::null())
        .spawn()
        .unwrap();
    let mut stdin = child.stdin.take().unwrap();
    let input = input.to_vec();
    let feeder = std::thread::spawn(move || stdin.write_all(&input));
    let output = child.wait_with_output().unwrap();
    // A program that ends early need not have read everything.
    let _ = feeder.join().unwrap();
    (output.stdout, output.status.success())
}

/// A stored file, by its path in the repository.
fn stored(path: &str) -> Vec<u8> {
    let root = Path::new(env!("CARGO_MANIFEST_DIR")).join("../..");
    fs::read(root.join(path)).unwrap()
}

#[test]
fn verdict_writes_one_line() {
    let program = env!("CARGO_BIN_EXE_verdict");
    let a = second::stored::A.as_bytes();
    assert_eq!(run(program, &[], a), (b"accepted 1 1 1\n".to_vec(), true));
    assert_eq!(run(program, &[], b""), (b"refused 4 0\n".to_vec(), true));
    assert_eq!(
        run(program, &[], &[0; 9000]),
        (b"refused 2 0\n".to_vec(), true)
    );
}

#[test]
fn cases_writes_the_stored_verdicts() {
    let program = env!("CARGO_BIN_EXE_cases");
    let written = run(program, &[], &stored("crates/cases/stdin"));
    assert!(written == (stored("crates/cases/stdout"), true));
    assert_eq!(run(program, &[], b""), (Vec::new(), true));
    assert_eq!(run(program, &[], b"text 5\nabc"), (Vec::new(), false));
}

#[test]
fn replay_writes_the_stored_answers() {
    let program = env!("CARGO_BIN_EXE_replay");
    let written = run(program, &[], &stored("crates/replay/stdin"));
    assert!(written == (stored("crates/replay/stdout"), true));
    let refused = b"text 3\nabc\nopen 1\nstate\n";
    assert_eq!(
        run(program, &[], refused),
        (b"refused 4 0\n".to_vec(), true)
    );
    assert_eq!(run(program, &[], b"open 1\n"), (Vec::new(), true));
    let skipped = [
        b"text 71\n",
        second::stored::A.as_bytes(),
        b"\n\n ; x\n;y\n \t\n\tstate ",
    ]
    .concat();
    let written = b"accepted 1 1 1\nrecord marks operation idle\n".to_vec();
    assert_eq!(run(program, &[], &skipped), (written, true));
}

#[test]
fn arrivals_writes_the_stored_answers() {
    let program = env!("CARGO_BIN_EXE_arrivals");
    let written = run(program, &[], &stored("crates/arrivals/stdin"));
    assert!(written == (stored("crates/arrivals/stdout"), true));
    assert_eq!(run(program, &[], b""), (Vec::new(), true));
    assert_eq!(run(program, &[], b"end\n"), (Vec::new(), false));
    let two = b"text 18\npiece 5\nab\nde\nend\n\ntext 3\nend";
    let written = b"more\nrefused 4 0\nrefused 4 0\n".to_vec();
    assert_eq!(run(program, &[], two), (written, true));
}

#[test]
fn readings_writes_the_stored_lines() {
    let program = env!("CARGO_BIN_EXE_readings");
    let input = stored("crates/readings/stdin");
    let written = run(program, &[], &input);
    assert!(written == (stored("crates/readings/stdout"), true));
    assert_eq!(run(program, &[], &input[..19]), (Vec::new(), true));
    let one = (b"0000000000000000\n".to_vec(), true);
    assert_eq!(run(program, &[], &[0; 39]), one);
}

#[test]
fn generate_follows_its_seed() {
    let program = env!("CARGO_BIN_EXE_generate");
    let texts = run(program, &["texts", "7", "20"], b"");
    assert_eq!(second::frame::read_all(&texts.0).unwrap().len(), 20);
    assert_eq!(run(program, &["texts", "7", "20"], b""), texts);
    assert_ne!(run(program, &["texts", "8", "20"], b""), texts);
    let (script, good) = run(program, &["script", "7"], b"");
    assert!(good);
    let (answers, good) = run(env!("CARGO_BIN_EXE_replay"), &[], &script);
    assert!(good && answers.starts_with(b"accepted "));
    assert!(!String::from_utf8(answers).unwrap().contains("unknown"));
    let (scripts, good) = run(program, &["pieces", "7", "20"], b"");
    assert!(good);
    let (answers, good) = run(env!("CARGO_BIN_EXE_arrivals"), &[], &scripts);
    assert!(good && !String::from_utf8(answers).unwrap().contains("unknown"));
    let (records, good) = run(program, &["readings", "7", "20"], b"");
    assert!(good && records.len() == 400);
    let (script, _) = run(program, &["calibrated", "7"], b"");
    let (answers, good) = run(env!("CARGO_BIN_EXE_replay"), &[], &script);
    assert!(good && !String::from_utf8(answers).unwrap().contains("unknown"));
}
