//! The command, started.

use std::io::Write;
use std::path::{Path, PathBuf};
use std::process::{self, Command, Output, Stdio};
use std::{env, fs, thread};

pub fn root() -> PathBuf {
    let root = Path::new(env!("CARGO_MANIFEST_DIR")).join("../..");
    root.canonicalize().expect("the repository")
}

/// The command over the proved programs of the repository, in its folder and not on a terminal.
pub fn command(arguments: &[&str]) -> Command {
    for program in ["explain", "replay", "tokens"] {
        let path = root().join(format!("crates/{program}/out/{program}"));
        assert!(path.exists(), "run `rt run` in crates/{program} first");
    }
    let mut command = Command::new(env!("CARGO_BIN_EXE_command"));
    command
        .args(arguments)
        .env("DESFANUK_ROOT", root())
        .env_remove("NO_COLOR")
        .current_dir(root())
        .stdin(Stdio::null());
    command
}

/// Whether `./desfanuk` can build the picture without further ado: the proved archive, which it links, is for x86-64.
pub fn is_picture_here() -> bool {
    cfg!(target_arch = "x86_64")
}

/// How a process ended.
#[derive(Debug, PartialEq, Eq)]
pub struct Ended {
    pub code: i32,
    pub out: String,
    pub err: String,
}

pub fn ended(output: Output) -> Ended {
    let text = |bytes| String::from_utf8(bytes).expect("what is written is UTF-8");
    Ended {
        code: output.status.code().expect("it ends by itself"),
        out: text(output.stdout),
        err: text(output.stderr),
    }
}

pub fn run(arguments: &[&str]) -> Ended {
    ended(command(arguments).output().expect("it starts"))
}

/// The command with something on its standard input. It need not read all of it.
pub fn fed(arguments: &[&str], input: &[u8]) -> Ended {
    let mut child = command(arguments)
        .stdin(Stdio::piped())
        .stdout(Stdio::piped())
        .stderr(Stdio::piped())
        .spawn()
        .expect("it starts");
    let mut to = child.stdin.take().expect("it is piped");
    thread::scope(|scope| {
        scope.spawn(move || to.write_all(input));
        ended(child.wait_with_output().expect("it ends"))
    })
}

/// A file of a test's own.
pub fn scratch(name: &str, bytes: &[u8]) -> String {
    let path = Path::new(env!("CARGO_TARGET_TMPDIR")).join(name);
    fs::write(&path, bytes).expect("written");
    path.into_os_string().into_string().expect("a plain path")
}

/// A place of a test's own outside the repository, for what `rt ci` refuses below it: links, and another tree. Nothing
/// is there yet.
pub fn apart(name: &str) -> PathBuf {
    let path = env::temp_dir().join(format!("desfanuk-{name}-{}", process::id()));
    let _ = fs::remove_dir_all(&path);
    path
}

/// A line of bash in the repository's folder.
pub fn shell(line: &str) -> Ended {
    let output = Command::new("bash")
        .args(["-c", line])
        .env_remove("NO_COLOR")
        .current_dir(root())
        .stdin(Stdio::null())
        .output();
    ended(output.expect("bash"))
}

/// The stored texts that are refused, and what the proved `explain` writes on each.
pub fn refused_texts() -> Vec<(String, String)> {
    let folder = root().join("rust/compare/explain");
    let mut all: Vec<(String, String)> = fs::read_dir(folder)
        .expect("the stored texts")
        .map(|entry| entry.expect("a file").path())
        .filter(|path| path.extension().is_some_and(|end| end == "devil"))
        .map(|path| {
            let told = fs::read_to_string(path.with_extension("txt")).expect("what is told");
            let name = path
                .file_name()
                .expect("a name")
                .to_string_lossy()
                .into_owned();
            (format!("rust/compare/explain/{name}"), told)
        })
        .filter(|(_, told)| told.starts_with("refused "))
        .collect();
    all.sort();
    assert!(all.len() > 20, "{} texts", all.len());
    all
}

/// The number and the position that the stored lines tell: `N` and `LINE:COLUMN`.
pub fn number_and_position(told: &str) -> (&str, String) {
    let mut lines = told.lines();
    let verdict = lines.next().expect("a verdict");
    let number = verdict.split(' ').nth(1).expect("a number");
    let position = lines.next().expect("a position");
    let position = position.replace("line ", "").replace(", column ", ":");
    (number, position)
}
