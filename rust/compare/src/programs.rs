//! The proved programs, run as a user runs them. `rt run` in crates/NAME builds one, and `rt ci` all.

use std::io::Write;
use std::path::{Path, PathBuf};
use std::process::{Command, Stdio};

pub fn root() -> PathBuf {
    Path::new(env!("CARGO_MANIFEST_DIR")).join("../..")
}

/// What a program writes on an input.
pub fn written(name: &str, input: &[u8]) -> String {
    let program = root().join(format!("crates/{name}/out/{name}"));
    assert!(program.exists(), "run `rt run` in crates/{name} first");
    let mut child = Command::new(root().join("run"))
        .arg(program)
        .stdin(Stdio::piped())
        .stdout(Stdio::piped())
        .spawn()
        .unwrap();
    let mut stdin = child.stdin.take().unwrap();
    let input = input.to_vec();
    let writer = std::thread::spawn(move || stdin.write_all(&input).unwrap());
    let output = child.wait_with_output().unwrap();
    writer.join().unwrap();
    assert!(output.status.success());
    String::from_utf8(output.stdout).unwrap()
}
