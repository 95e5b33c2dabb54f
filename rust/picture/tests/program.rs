//! The program, as a process: what it writes and how it ends.

mod parts;

use std::fs::{self, File};
use std::io::Write;
use std::process::{Command, Output, Stdio};

use parts::{page, root};

/// The program with this on standard input and this as standard output.
fn run(text: &[u8], out: Stdio) -> Output {
    let mut child = Command::new(root().join("run"))
        .arg(env!("CARGO_BIN_EXE_picture"))
        .stdin(Stdio::piped())
        .stdout(out)
        .stderr(Stdio::piped())
        .spawn()
        .expect("it starts");
    // It stops reading where the text is too long, and then the rest has nowhere to go.
    let _ = child.stdin.take().expect("an input").write_all(text);
    child.wait_with_output().expect("it ends")
}

#[test]
fn an_accepted_text_gives_its_page() {
    let text = fs::read(root().join("boards/scoring.devil")).expect("a board");
    let output = run(&text, Stdio::piped());
    assert_eq!(output.status.code(), Some(0));
    assert_eq!(output.stdout, page(&text).as_bytes());
    assert!(output.stderr.is_empty());
}

#[test]
fn a_refused_text_gives_its_refusal() {
    for (text, want) in [
        (&b"device"[..], "refused (4)"),
        (&[b' '; 1_000_000], "refused (2)"),
        (&[0xFF; 3], "refused (3)"),
    ] {
        let output = run(text, Stdio::piped());
        assert_eq!(output.status.code(), Some(1), "{want}");
        assert!(output.stdout.is_empty(), "{want}");
        let told = String::from_utf8_lossy(&output.stderr);
        assert!(
            told.starts_with(want) && told.lines().count() == 1,
            "{told}"
        );
    }
}

#[test]
fn a_page_that_cannot_be_written_is_trouble() {
    let text = fs::read(root().join("boards/scoring.devil")).expect("a board");
    let full = File::create("/dev/full").expect("a device that is always full");
    let output = run(&text, full.into());
    assert_eq!(output.status.code(), Some(2));
    let told = String::from_utf8_lossy(&output.stderr);
    assert!(told.starts_with("picture: "), "{told}");
}
