//! What the build script tells: for which processor the archive is, where it is looked for, and what to do.

use std::env;
use std::fs;
use std::path::{Path, PathBuf};
use std::process::{Command, Output};

/// The build script, compiled.
fn script() -> PathBuf {
    let program = Path::new(env!("CARGO_TARGET_TMPDIR")).join("build_script");
    let compiler = env::var_os("RUSTC").unwrap_or("rustc".into());
    let status = Command::new(compiler)
        .args(["--edition", "2021", "-o"])
        .arg(&program)
        .arg(Path::new(env!("CARGO_MANIFEST_DIR")).join("build.rs"))
        .status();
    assert!(status.expect("a compiler").success());
    program
}

fn run(script: &Path, processor: &str, folder: Option<&Path>) -> Output {
    let mut command = Command::new(script);
    command
        .env("CARGO_CFG_TARGET_ARCH", processor)
        .env("CARGO_MANIFEST_DIR", env!("CARGO_MANIFEST_DIR"))
        .env_remove("DESFANUK_ARCHIVE_DIR");
    if let Some(folder) = folder {
        command.env("DESFANUK_ARCHIVE_DIR", folder);
    }
    command.output().expect("it runs")
}

#[test]
fn the_build_says_what_is_missing() {
    let script = script();
    let stopped = |output: Output, words: &str| {
        let told = String::from_utf8_lossy(&output.stderr);
        assert_eq!(output.status.code(), Some(1), "{told}");
        assert!(told.contains(words), "{told}");
    };
    let arm = "The proved archive is for x86-64, and this builds for aarch64.";
    stopped(run(&script, "aarch64", None), arm);
    let empty = Path::new(env!("CARGO_TARGET_TMPDIR")).join("no_archive");
    fs::create_dir_all(&empty).expect("made");
    let missing = "libabi.a is missing: run `cd crates/abi && rt lib`";
    stopped(run(&script, "x86_64", Some(&empty)), missing);

    // Who names a folder says that its archive is the right one.
    let archive = Path::new(env!("DESFANUK_ARCHIVE"));
    for processor in ["x86_64", "aarch64"] {
        let output = run(&script, processor, archive.parent());
        let told = String::from_utf8_lossy(&output.stdout);
        assert!(output.status.success(), "{processor}");
        assert!(told.contains("cargo:rustc-link-lib=static=abi\n"), "{told}");
    }
}
