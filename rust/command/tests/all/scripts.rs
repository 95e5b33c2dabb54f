//! The scripts at the root: `desfanuk`, `run` and `first`.

use std::fs;
use std::os::unix::fs::symlink;
use std::time::{Duration, Instant};

use crate::started::{apart, is_picture_here, root, run, shell};

/// Every example of the help is run, and ends as it says.
#[test]
fn the_examples_of_the_help_run() {
    let help = run(&["--help"]);
    assert_eq!((help.code, help.err.as_str()), (0, ""));
    assert!(
        help.out.lines().all(|line| line.len() <= 90),
        "{}",
        help.out
    );
    let (_, examples) = help.out.split_once("Examples:\n").expect("examples");
    for command in ["check", "explain", "map", "replay", "tokens"] {
        assert!(
            examples.contains(&format!("./desfanuk {command} ")),
            "{command}"
        );
    }
    for example in examples.lines() {
        if example.contains("--html") && !is_picture_here() {
            continue;
        }
        let ended = shell(&example.replace(" > map.html", ""));
        let code = i32::from(example.contains("int(11)"));
        assert_eq!(
            (ended.code, ended.err.as_str()),
            (code, ""),
            "{example}: {}",
            ended.out
        );
        assert!(!ended.out.is_empty(), "{example}");
    }
}

#[test]
fn the_command_runs_from_elsewhere_by_a_link() {
    let link = apart("linked");
    symlink(root().join("desfanuk"), &link).expect("linked");
    let board = root().join("boards/lamp.devil");
    let ended = shell(&format!(
        "cd / && {} check {}",
        link.display(),
        board.display()
    ));
    fs::remove_file(link).expect("removed");
    assert_eq!(ended.code, 0, "{ended:?}");
}

#[test]
fn run_tells_what_is_wrong() {
    for (line, words) in [
        ("./run", "which program?"),
        ("./run explian", "no program explian; there are: "),
        ("./run verdict boards/lamp.devil", "takes no arguments"),
        ("./run ./nothing", "./nothing: no such program"),
    ] {
        let ended = shell(line);
        assert_eq!(
            (ended.code, ended.out.as_str()),
            (2, ""),
            "{line}: {ended:?}"
        );
        assert!(ended.err.contains(words), "{line}: {}", ended.err);
    }
    let ended = shell("./run verdict < boards/lamp.devil");
    assert_eq!((ended.code, ended.out.as_str()), (0, "accepted 2 3 3\n"));
}

/// Before anything is proved.
#[test]
fn first_tells_a_wrong_argument_at_once() {
    let began = Instant::now();
    for (line, words) in [
        ("./first nothing", "nothing: no such file"),
        ("./first boards", "boards: not a file"),
        ("./first --form x", "--form: no such file"),
        ("./first --from", "takes an archive"),
        ("./first --from nothing", "no such archive"),
    ] {
        let ended = shell(line);
        assert_eq!(
            (ended.code, ended.out.as_str()),
            (2, ""),
            "{line}: {ended:?}"
        );
        assert!(ended.err.contains(words), "{line}: {}", ended.err);
    }
    assert_eq!(shell("./first --help").code, 0);
    assert!(
        began.elapsed() < Duration::from_secs(20),
        "{:?}",
        began.elapsed()
    );
}

/// Which crate of how many, and how long is left: of `explain` and all below it.
#[test]
fn progress_is_told() {
    let lines = "rt: chose --jobs 2 for logic\\ncrate logic: modules loaded=2 checked=9\\nlogic=proved functions=0\\n\
        only=0 proved=0\\ncrate token: modules loaded=9 checked=0\\nlogic=proved functions=36\\n\
        rt: nothing has changed since the last proved build, by out/explain.stamp, so nothing is checked now\\n";
    let ended = shell(&format!("printf '{lines}' | .ci/progress explain"));
    let told: Vec<&str> = ended.out.lines().collect();
    assert_eq!((ended.code, told.len()), (0, 3), "{ended:?}");
    assert!(told[0].starts_with("     1 of "));
    assert!(told[0].contains(": logic proved (") && told[0].contains(" s); minutes left: "));
    assert!(told[1].starts_with("     2 of "));
    assert!(told[1].contains(": token proved (as it was kept); minutes left: "));
    // With a program all below it is done.
    let (done, all) = told[2].trim().split_once(" of ").expect("how many");
    assert!(all.starts_with(&format!(
        "{done}: explain proved (unchanged); minutes left: 0"
    )));
}
