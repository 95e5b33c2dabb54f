//! The proved programs and the picture, started: `run` of the repository knows how, on each processor.

use std::env;
use std::io::{ErrorKind, Read, Write};
use std::path::{Path, PathBuf};
use std::process::{Child, Command, Stdio};
use std::thread;

use crate::report::Trouble;

/// The repository, or what was unpacked of one.
fn root() -> PathBuf {
    match env::var_os("DESFANUK_ROOT") {
        Some(root) => PathBuf::from(root),
        None => Path::new(env!("CARGO_MANIFEST_DIR")).join("../.."),
    }
}

/// What a proved program writes on an input.
pub fn told(program: &str, input: &[u8]) -> Result<Vec<u8>, Trouble> {
    let path = root().join(format!("crates/{program}/out/{program}"));
    started(program, &path, "./first proves and builds it", input)
}

/// What rust/picture writes on an input. It links the proved archive, and so is a program for x86-64.
pub fn drawn(input: &[u8]) -> Result<Vec<u8>, Trouble> {
    let path = root().join("rust/target/x86_64-unknown-linux-gnu/release/picture");
    let remedy = "after (cd crates/abi && rt lib), ./desfanuk map --html builds it";
    started("picture", &path, remedy, input)
}

fn started(name: &str, path: &Path, remedy: &str, input: &[u8]) -> Result<Vec<u8>, Trouble> {
    if !path.exists() {
        return Err(Trouble::new(format!(
            "the program {name} is not built yet: {remedy}"
        )));
    }
    let trouble = |error| Trouble::with(&path.display().to_string(), &error);
    let child = Command::new(root().join("run"))
        .arg(path)
        .stdin(Stdio::piped())
        .stdout(Stdio::piped())
        .spawn()
        .map_err(trouble)?;
    let (written, ended_well) = conversation(child, input).map_err(trouble)?;
    if ended_well {
        Ok(written)
    } else {
        Err(Trouble::new(format!("the program {name} failed")))
    }
}

/// Hands the input over while the output is taken. A program that has read enough need not take all of it.
fn conversation(mut child: Child, input: &[u8]) -> std::io::Result<(Vec<u8>, bool)> {
    let mut to = child.stdin.take().expect("it is piped");
    let mut from = child.stdout.take().expect("it is piped");
    let mut written = Vec::new();
    thread::scope(|scope| {
        let handing = scope.spawn(move || to.write_all(input));
        from.read_to_end(&mut written)?;
        match handing.join().expect("it does not panic") {
            Err(error) if error.kind() != ErrorKind::BrokenPipe => Err(error),
            _ => Ok(()),
        }
    })?;
    Ok((written, child.wait()?.success()))
}

/// A text in the frame that programs of several texts take.
pub fn framed(text: &[u8]) -> Vec<u8> {
    let mut frame = format!("text {}\n", text.len()).into_bytes();
    frame.extend(text);
    frame.push(b'\n');
    frame
}
