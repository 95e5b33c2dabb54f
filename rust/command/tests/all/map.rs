//! `map`.

use std::fs;
use std::os::unix::fs::PermissionsExt;
use std::path::Path;

use crate::started::{command, ended, fed, is_picture_here, root, run, shell, Ended};

#[test]
fn the_map_is_the_proved_programs() {
    let ended = run(&["map", "boards/uart16550.devil"]);
    let stored = root().join("rust/compare/explain/uart16550.txt");
    let stored = fs::read_to_string(stored).expect("its map");
    let (_, map) = stored.split_once("\n\n").expect("the verdict");
    assert_eq!(
        (ended.code, ended.out.as_str(), ended.err.as_str()),
        (0, map, "")
    );
}

#[test]
fn a_refused_text_has_no_map() {
    let ended = run(&["map", "rust/compare/explain/r16.devil"]);
    assert_eq!((ended.code, ended.out.as_str()), (1, ""));
    let first = "rust/compare/explain/r16.devil:3:14: refused 16: ";
    assert!(ended.err.starts_with(first), "{}", ended.err);
    assert_eq!(
        run(&["map", "--html", "rust/compare/explain/r16.devil"]),
        ended
    );
    let ended = run(&["map", "--json", "rust/compare/explain/r16.devil"]);
    assert_eq!((ended.code, ended.err.as_str()), (1, ""));
    assert!(
        ended.out.contains("\"verdict\":\"refused\",\"number\":16"),
        "{}",
        ended.out
    );
}

/// Everything that a description can have, as JSON.
#[test]
fn a_map_as_json() {
    let text = b"device d(a : bit[8] port @ {0..1, 4}, b : bit[16] port) {
        register r = read a @ 1, write a @ 4, write mask '1*......' , read mask '0......1' : bit[8];
        register s = b : bit[16];
        variable x = read r[6..1], write r[5..0], volatile, write trigger : signed int(6);
        variable y = s[15..8] # s[6..0] : int(15);
        variable z = s[7] : bool;
    }";
    let ended = fed(&["map", "--json", "-"], text);
    let want = concat!(
        r#"{"file":"-","verdict":"accepted","counts":{"parameters":2,"registers":2,"variables":3},"device":"d","#,
        r#""parameters":[{"name":"a","width":8,"offsets":[[0,1],[4,4]]},{"name":"b","width":16,"offsets":[[0,0]]}],"#,
        r#""registers":[{"name":"r","width":8,"read":{"parameter":"a","offset":1,"mask":"0......1"},"#,
        r#""write":{"parameter":"a","offset":4,"mask":"1*......"}},"#,
        r#"{"name":"s","width":16,"read":{"parameter":"b","offset":0,"mask":"................"},"#,
        r#""write":{"parameter":"b","offset":0,"mask":"................"}}],"#,
        r#""variables":[{"name":"x","type":"signed int","width":6,"least":-32,"greatest":31,"volatile":true,"#,
        r#""read":{"trigger":false,"pieces":[{"register":"r","high":6,"low":1}]},"#,
        r#""write":{"trigger":true,"pieces":[{"register":"r","high":5,"low":0}]}},"#,
        r#"{"name":"y","type":"int","width":15,"least":0,"greatest":32767,"volatile":false,"#,
        r#""read":{"trigger":false,"pieces":[{"register":"s","high":15,"low":8},{"register":"s","high":6,"low":0}]},"#,
        r#""write":{"trigger":false,"pieces":[{"register":"s","high":15,"low":8},{"register":"s","high":6,"low":0}]}},"#,
        r#"{"name":"z","type":"bool","width":1,"least":0,"greatest":1,"volatile":false,"#,
        r#""read":{"trigger":false,"pieces":[{"register":"s","high":7,"low":7}]},"#,
        r#""write":{"trigger":false,"pieces":[{"register":"s","high":7,"low":7}]}}]}"#,
        "\n"
    );
    assert_eq!((ended.code, ended.err.as_str()), (0, ""), "{ended:?}");
    assert_eq!(ended.out, want);
}

/// Lists that the station does not confirm never go out: here it writes `low` of the scoring board elsewhere.
#[test]
fn lists_that_are_not_confirmed_are_trouble() {
    let folder = Path::new(env!("CARGO_TARGET_TMPDIR")).join("other");
    let _ = fs::remove_dir_all(&folder);
    for program in ["explain", "replay", "tokens"] {
        let out = folder.join("crates").join(program).join("out");
        fs::create_dir_all(&out).expect("made");
        fs::write(out.join(program), "").expect("written");
    }
    let run = folder.join("run");
    let real = root().join("run");
    let other = |edit: &str| {
        let script = format!(
            "#!/usr/bin/env bash\n{} $(basename $1) | sed '{edit}'\n",
            real.display()
        );
        fs::write(&run, script).expect("written");
        fs::set_permissions(&run, fs::Permissions::from_mode(0o755)).expect("made a program");
        let mut command = command(&["map", "--json", "boards/scoring.devil"]);
        ended(
            command
                .env("DESFANUK_ROOT", &folder)
                .output()
                .expect("it starts"),
        )
    };
    assert_eq!(other("").code, 0);
    let ended = other("s/offer write 0 1 /offer write 0 2 /");
    assert_eq!((ended.code, ended.out.as_str()), (2, ""));
    assert!(
        ended.err.contains("reads this text otherwise"),
        "{}",
        ended.err
    );
}

/// The page is as rust/picture has stored it; `-` is standard input here too.
#[test]
fn a_map_as_a_page() {
    if !is_picture_here() {
        return;
    }
    let stored = root().join("rust/picture/tests/pages/scoring.html");
    let want = Ended {
        code: 0,
        out: fs::read_to_string(stored).expect("its page"),
        err: String::new(),
    };
    assert_eq!(shell("./desfanuk map --html boards/scoring.devil"), want);
    let text = fs::read(root().join("boards/scoring.devil")).expect("a board");
    assert_eq!(fed(&["map", "--html", "-"], &text), want);
}

/// Without the proved archive there is no page; with a picture that fails or writes none, neither.
#[test]
fn a_page_that_is_not_drawn_is_trouble() {
    let folder = Path::new(env!("CARGO_TARGET_TMPDIR")).join("undrawn");
    let _ = fs::remove_dir_all(&folder);
    let picture = folder.join("rust/target/x86_64-unknown-linux-gnu/release/picture");
    let html = |words: &str| {
        let line = format!("{}/desfanuk map --html boards/lamp.devil", folder.display());
        let ended = shell(&line);
        assert_eq!((ended.code, ended.out.as_str()), (2, ""), "{ended:?}");
        assert!(ended.err.contains(words), "{ended:?}");
    };
    let made = shell(&format!(
        "mkdir -p {0}/rust/picture {0}/rust/target/release && cp {1} {0}/rust/target/release/command &&
         cp -a desfanuk run {0} && cp --parents crates/explain/out/explain crates/replay/out/replay {0}",
        folder.display(),
        env!("CARGO_BIN_EXE_command")
    ));
    assert_eq!(made.code, 0, "{made:?}");
    html("which is missing: (cd crates/abi && rt lib) makes it");
    fs::remove_dir(folder.join("rust/picture")).expect("removed");
    html("the program picture is not built yet: after (cd crates/abi && rt lib)");
    fs::create_dir_all(picture.parent().expect("a folder")).expect("made");
    let other = |to: &str, words: &str| {
        let run = root().join("run");
        let script = format!(
            "#!/usr/bin/env bash\ncase $1 in *picture) {to} ;; *) {} \"$1\" ;; esac\n",
            run.display()
        );
        fs::write(folder.join("run"), script).expect("written");
        html(words);
    };
    fs::write(&picture, "").expect("written");
    other("exit 1", "the program picture failed");
    other(r"printf '\377'", "the program picture wrote no page");
}
