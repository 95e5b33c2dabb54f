//! Trouble is told, ends with 2, and is never a verdict; and inputs that are no descriptions are.

use std::fs::{self, File};
use std::path::Path;
use std::process::Stdio;
use std::time::{Duration, Instant};

use crate::started::{command, ended, fed, root, run, scratch, shell, Ended};

fn is_trouble(ended: &Ended, words: &str) {
    assert_eq!((ended.code, ended.out.as_str()), (2, ""), "{ended:?}");
    assert!(ended.err.contains(words), "{ended:?}");
}

const BOARD: &str = "boards/scoring.devil";

#[test]
fn bad_files_are_told() {
    for (path, words) in [
        ("nothing", "nothing: No such file"),
        ("boards", "boards: Is a directory"),
        ("boards/scoring.devil/x", "Not a directory"),
        ("/proc/self/mem", "/proc/self/mem: "),
        ("", "No such file"),
    ] {
        for arguments in [
            vec!["check", path],
            vec!["check", "--json", path],
            vec!["explain", path],
            vec!["map", path],
            vec!["map", "--html", path],
            vec!["map", "--json", path],
            vec!["tokens", path],
            vec!["replay", path, "boards/scoring.script"],
            vec!["replay", BOARD, path],
            vec!["replay", "--framed", path],
        ] {
            is_trouble(&run(&arguments), words);
        }
    }
}

#[test]
fn bad_arguments_are_told() {
    for (arguments, words) in [
        (vec![], "--help"),
        (vec!["explian", BOARD], "did you mean `explain`?"),
        (vec!["check"], "usage: desfanuk check"),
        (vec!["check", "--jsom", BOARD], "did you mean `--json`?"),
        (vec!["explain"], "usage: desfanuk explain"),
        (vec!["explain", BOARD, BOARD], "usage: desfanuk explain"),
        (
            vec!["explain", "--json", BOARD],
            "`--json` is no option here",
        ),
        (vec!["map", "--json", "--json", BOARD], "no option here"),
        (vec!["map", "--html", "--json", BOARD], "no option here"),
        (vec!["map", "--htm", BOARD], "did you mean `--html`?"),
        (
            vec!["map", "--html"],
            "usage: desfanuk map [--html | --json] FILE",
        ),
        (vec!["replay", BOARD], "usage: desfanuk replay"),
        (vec!["replay", "-", "-"], "only one"),
        (vec!["tokens"], "usage: desfanuk tokens"),
        (vec!["check", "--", "--json"], "--json: No such file"),
    ] {
        is_trouble(&run(&arguments), words);
    }
}

/// A writer whose reader is gone, a full disk, and no output at all.
#[test]
fn output_that_fails_is_trouble() {
    let (reader, writer) = std::io::pipe().expect("a pipe");
    drop(reader);
    let output = command(&["check", BOARD]).stdout(writer).output();
    is_trouble(
        &ended(output.expect("it starts")),
        "standard output: Broken pipe",
    );

    let full = File::options()
        .write(true)
        .open("/dev/full")
        .expect("it is there");
    let output = command(&["map", BOARD]).stdout(Stdio::from(full)).output();
    is_trouble(
        &ended(output.expect("it starts")),
        "standard output: No space",
    );

    is_trouble(
        &shell(&format!("./desfanuk check {BOARD} >&-")),
        "standard output is closed",
    );
    is_trouble(&shell("./desfanuk check - <&-"), "standard input is closed");
}

/// A folder without proved programs, and with a program that fails or that tells something else.
#[test]
fn programs_that_fail_are_trouble() {
    let folder = Path::new(env!("CARGO_TARGET_TMPDIR")).join("root");
    let bin = folder.join("crates/explain/out");
    let _ = fs::remove_dir_all(&folder);
    fs::create_dir_all(&bin).expect("made");
    let check = || {
        let output = command(&["check", BOARD])
            .env("DESFANUK_ROOT", &folder)
            .output();
        ended(output.expect("it starts"))
    };
    is_trouble(&check(), "explain is not built yet: ./first");
    fs::write(bin.join("explain"), "").expect("written");
    is_trouble(&check(), "No such file");
    fs::copy("/bin/false", folder.join("run")).expect("copied");
    is_trouble(&check(), "the program explain failed");
    fs::copy("/bin/echo", folder.join("run")).expect("copied");
    is_trouble(&check(), "no verdict was told");
}

/// A file of a gigabyte is answered at once, and never held in memory; so is an input without an end.
#[test]
fn a_long_input_is_refused_at_once() {
    let path = scratch("sparse.devil", b"");
    let file = File::create(&path).expect("made");
    file.set_len(1 << 30).expect("a gigabyte, sparse");
    let began = Instant::now();
    let first = format!("{path}:1:1: refused 2: ");
    for arguments in [
        vec!["check", &path],
        vec!["explain", &path],
        vec!["tokens", &path],
        vec!["replay", &path, "boards/scoring.script"],
    ] {
        let ended = run(&arguments);
        assert_eq!(ended.code, 1, "{arguments:?} {ended:?}");
        assert!(ended.out.starts_with(&first), "{arguments:?} {ended:?}");
    }
    is_trouble(&run(&["replay", BOARD, &path]), "more than can be played");
    is_trouble(
        &run(&["replay", "--framed", &path]),
        "more than can be played",
    );
    let ended = shell("yes | ./desfanuk check -");
    assert_eq!(
        (ended.code, ended.out.starts_with("-:1:1: refused 2: ")),
        (1, true)
    );
    assert!(
        began.elapsed() < Duration::from_secs(60),
        "{:?}",
        began.elapsed()
    );
    if cfg!(target_arch = "x86_64") {
        let ended = shell(&format!("ulimit -v 400000 && ./desfanuk check {path}"));
        assert_eq!(ended.code, 1, "{ended:?}");
    }
    fs::remove_file(path).expect("removed");
}

/// The longest text that is handed on is longer than a description may be.
#[test]
fn a_text_at_the_limit_of_reading_is_too_long() {
    let ended = fed(&["check", "-"], &[b' '; 65_536]);
    assert!(ended.out.starts_with("-:1:1: refused 2: "), "{ended:?}");
}

/// Any bytes get a verdict, and no control character and nothing but UTF-8 is written.
#[test]
fn binary_input_is_refused_and_harmless() {
    let every: Vec<u8> = (0..=255).collect();
    let program = fs::read(root().join("crates/verdict/out/verdict")).expect("the program");
    let cases: [&[u8]; 5] = [
        b"",
        &every,
        b"device \x1b[2J\xff\xfe",
        b"\xef\xbb\xbfdevice",
        &program[..4000],
    ];
    for (at, bytes) in cases.into_iter().enumerate() {
        let path = scratch(&format!("binary{at}.devil"), bytes);
        for command in ["check", "explain", "tokens"] {
            let ended = run(&[command, &path]);
            assert_eq!(ended.code, 1, "{command} {at}: {ended:?}");
            assert!(ended.out.starts_with(&format!("{path}:")), "{ended:?}");
            let harmless = |c: char| c == '\n' || c == '\t' || !c.is_control();
            assert!(
                ended.out.chars().all(harmless),
                "{command} {at}: {:?}",
                ended.out
            );
        }
    }
}

/// A terminal gets colour, and not where NO_COLOR is set; nothing else ever does.
#[test]
fn colour_is_for_terminals() {
    let on_a_terminal = |before: &str| {
        let program = env!("CARGO_BIN_EXE_command");
        let root = root();
        let line = format!(
            "{before} DESFANUK_ROOT={} {program} check {BOARD}",
            root.display()
        );
        shell(&format!("script -qec '{line}' /dev/null")).out
    };
    assert!(on_a_terminal("TERM=xterm").contains("\x1b[32maccepted:\x1b[0m"));
    assert!(!on_a_terminal("NO_COLOR=1").contains('\x1b'));
    assert!(!run(&["check", BOARD]).out.contains('\x1b'));
}
