//! include/desfanuk.h and the examples in C: they compile without a warning, the header's numbers
//! are this crate's, and each example tells the same story as the one in Rust. A compiler is there,
//! since Rust links by it.

use std::env;
use std::ffi::OsString;
use std::fs::{self, File};
use std::path::{Path, PathBuf};
use std::process::Command;

use desfanuk::{raw, Calibration, Refusal};

#[allow(dead_code)]
#[path = "../examples/score.rs"]
mod score;

#[allow(dead_code)]
#[path = "../examples/pieces.rs"]
mod pieces;

#[allow(dead_code)]
#[path = "../examples/lux.rs"]
mod lux;

const WARNINGS: [&str; 4] = ["-Wall", "-Wextra", "-Werror", "-pedantic"];

fn of_repository(path: &str) -> PathBuf {
    PathBuf::from(env!("CARGO_MANIFEST_DIR"))
        .join("../..")
        .join(path)
}

/// Where the build found the archive.
fn archive() -> PathBuf {
    Path::new(env!("DESFANUK_ARCHIVE")).to_path_buf()
}

fn compile(language: &[&str], rest: &[&Path]) {
    let compiler = env::var_os("CC").unwrap_or(OsString::from("cc"));
    let status = Command::new(compiler)
        .args(language)
        .args(WARNINGS)
        .arg("-I")
        .arg(of_repository("include"))
        .args(rest)
        .status()
        .expect("a C compiler");
    assert!(status.success(), "{language:?} {rest:?}");
}

fn scratch(name: &str) -> PathBuf {
    Path::new(env!("CARGO_TARGET_TMPDIR")).join(name)
}

/// The example of this name in C, compiled.
fn example(name: &str) -> PathBuf {
    let program = scratch(name);
    let source = of_repository(&format!("include/{name}.c"));
    compile(
        &["-std=c99"],
        &[&source, &archive(), Path::new("-o"), &program],
    );
    program
}

/// The name of a refusal's macro.
fn macro_of(refusal: Refusal) -> String {
    let mut name = "DESFANUK_REFUSED".to_string();
    for letter in format!("{refusal:?}").chars() {
        if letter.is_uppercase() {
            name.push('_');
        }
        name.push(letter.to_ascii_uppercase());
    }
    name
}

#[test]
fn the_numbers_of_the_header_are_those_of_the_crate() {
    let mut numbers = vec![
        (
            "DESFANUK_PARAMETERS_WORDS".to_string(),
            raw::PARAMETERS_WORDS,
        ),
        ("DESFANUK_REGISTERS_WORDS".to_string(), raw::REGISTERS_WORDS),
        ("DESFANUK_VARIABLES_WORDS".to_string(), raw::VARIABLES_WORDS),
        ("DESFANUK_STORE_BYTES".to_string(), raw::STORE_BYTES),
        ("DESFANUK_VERDICT_WORDS".to_string(), raw::VERDICT_WORDS),
        ("DESFANUK_OPERATION_WORDS".to_string(), raw::OPERATION_WORDS),
        ("DESFANUK_ANSWER_WORDS".to_string(), raw::ANSWER_WORDS),
    ];
    for &refusal in Refusal::ALL {
        numbers.push((macro_of(refusal), usize::from(refusal.number())));
    }
    let mut program = "#include \"desfanuk.h\"\n".to_string();
    for (name, number) in &numbers {
        program += &format!("typedef char {name}_is[{name} == {number} ? 1 : -1];\n");
    }
    for (kind, width) in (0..3).flat_map(|kind| (1..=32).map(move |width| (kind, width))) {
        let (least, greatest) = match kind {
            1 => (-(1i64 << (width - 1)), (1i64 << (width - 1)) - 1),
            _ => (0, (1i64 << width) - 1),
        };
        program += &format!(
            "typedef char range_{kind}_{width}[DESFANUK_LEAST({kind}, {width}) == {least} && \
             DESFANUK_GREATEST({kind}, {width}) == {greatest} ? 1 : -1];\n"
        );
    }
    program += "typedef char contradicting[DESFANUK_CONTRADICTING(0xD0, 0x40, 0xFF) == 0x90 && \
                DESFANUK_CONTRADICTING(0xD0, 0x40, 0x65) == 0 ? 1 : -1];\n";
    let path = scratch("numbers.c");
    fs::write(&path, program).expect("written");
    for language in [
        ["-x", "c", "-std=c99", "-fsyntax-only"],
        ["-x", "c++", "-std=c++98", "-fsyntax-only"],
    ] {
        compile(&language, &[&path]);
    }
}

#[test]
fn the_example_tells_the_same_story_in_c_and_in_rust() {
    let want = include_str!("score.txt");
    let board = of_repository("boards/scoring.devil");
    let text = fs::read(&board).expect("the board");
    assert_eq!(score::story(text).expect("a story"), want);

    let told = Command::new(of_repository("run"))
        .arg(example("score"))
        .arg(&board)
        .output()
        .expect("it runs");
    assert!(told.status.success());
    assert_eq!(String::from_utf8_lossy(&told.stdout), want);
}

/// What a program of a few lines over desfanuk_station.h writes. It compiles as C and as C++, with
/// every warning.
fn written(name: &str, body: &str) -> String {
    let source = scratch(&format!("{name}.c"));
    let program = format!(
        "#include \"desfanuk_station.h\"\n#include <stdio.h>\n\
         int main(void)\n{{\n{body}\nreturn 0;\n}}\n"
    );
    fs::write(&source, program).expect("written");
    compile(&["-x", "c++", "-std=c++98", "-fsyntax-only"], &[&source]);
    let program = scratch(name);
    let whole = [&source, &archive(), Path::new("-o"), &program];
    compile(&["-std=c99"], &whole);
    let output = Command::new(of_repository("run")).arg(program).output();
    let output = output.expect("it runs");
    assert!(output.status.success());
    String::from_utf8(output.stdout).expect("words")
}

#[test]
fn numbers_have_the_same_words_in_c_and_in_rust() {
    let told = written(
        "words",
        "int n; for (n = 0; n < 256; n++) printf(\"%s\\n\", desfanuk_words((uint64_t)n));",
    );
    let told: Vec<&str> = told.lines().collect();
    let want = (0..=255).map(|number| Refusal::of(number).map_or("", Refusal::words));
    assert_eq!(told, want.collect::<Vec<&str>>());
}

/// One struct through a load, a place, an opening, a read in units, and indices that there are not.
#[test]
fn one_struct_is_enough_in_c() {
    let told = written(
        "struct",
        r#"static const char text[] =
"device d(b : bit[8] port @ {0..1}) {\n  register r = b @ 0 : bit[8];\n"
"  register s = b @ 1, mask '0...1...' : bit[8];\n"
"  variable v = r : int(8); variable w = s[6..4] # s[2..0] : signed int(6); }";
static const uint32_t power[2] = {0, 0};
static struct desfanuk d;
size_t w;
printf("%d ", (int)desfanuk_station_load(&d, text, sizeof text - 2));
printf("%d:%d ", (int)desfanuk_station_line(&d), (int)desfanuk_station_column(&d));
printf("%d\n", (int)desfanuk_station_load(&d, text, sizeof text - 1));
w = desfanuk_station_variable(&d, "w");
printf("%d ", (int)desfanuk_station_begin_read(&d, w));
printf("%d\n", (int)desfanuk_station_open(&d, power, 2));
printf("%d ", (int)desfanuk_station_begin_read(&d, desfanuk_station_variable(&d, "x")));
printf("%ld..%ld ", (long)desfanuk_station_least(&d, w), (long)desfanuk_station_greatest(&d, w));
printf("%ld\n", (long)desfanuk_station_greatest(&d, (size_t)-1));
printf("%d ", (int)desfanuk_station_begin_read_in_units(&d, w, 0.5, 100.0));
printf("%d ", (int)desfanuk_station_access(&d).offset);
printf("%d ", (int)desfanuk_station_confirm(&d, 0x7E));
printf("%d %g ", desfanuk_station_is_done_in_units(&d), desfanuk_station_reading(&d));
printf("%d\n", (int)desfanuk_station_accesses(&d));
printf("%d ", (int)desfanuk_station_begin_read(&d, w));
printf("%d ", (int)desfanuk_station_confirm(&d, 0xFF));
printf("%d ", desfanuk_station_is_contradicted(&d));
printf("%.*s ", (int)desfanuk_station_name_length(&d, desfanuk_station_blamed(&d)),
       desfanuk_station_name(&d, desfanuk_station_blamed(&d)));
printf("%x ", (unsigned)desfanuk_station_contradicting(&d, 1, 0xFF));
printf("%s%d\n", desfanuk_station_name(&d, 64), (int)desfanuk_station_width(&d, 64));
printf("%d ", (int)desfanuk_station_begin_write(&d, w, -32));
printf("%x ", (unsigned)desfanuk_station_access(&d).number);
printf("%d ", (int)desfanuk_station_abandon(&d));
printf("%d\n", (int)desfanuk_station_begin_read(&d, w));"#,
    );
    let want = "4 4:76 0\n21 0\n25 -32..31 0\n0 1 0 1 99 1\n0 52 1 s 80 0\n0 48 0 28\n";
    assert_eq!(told, want);
}

/// A text in three pieces and in one; and a text that its second piece, of one byte, makes too long.
#[test]
fn pieces_are_answered_alike_in_c_and_in_rust() {
    let program = example("pieces");
    let path = scratch("pieces.devil");
    let a = "device d(base:bit[8] port){register r=base:bit[8];variable v=r:int(8);}";
    let long = " ".repeat(8193);
    let more = "30 bytes: more\n30 bytes: more\n11 bytes: more\nend: accepted 1 1 1\n";
    let whole = "71 bytes: more\nend: accepted 1 1 1\n";
    let passed = "8192 bytes: more\n1 bytes: refused 2 0\nend: refused 2 0\n";
    for (text, bytes, want) in [(a, 30, more), (a, 8192, whole), (&long, 8192, passed)] {
        fs::write(&path, text).expect("written");
        let told = pieces::story(text.as_bytes(), bytes);
        assert_eq!(told.expect("it is read"), want);
        let told = Command::new(of_repository("run"))
            .arg(&program)
            .arg(bytes.to_string())
            .stdin(File::open(&path).expect("the text"))
            .output()
            .expect("it runs");
        assert!(told.status.success());
        assert_eq!(String::from_utf8_lossy(&told.stdout), want);
    }
}

/// The lamp's scale from end to end; a gain so great that the light is not finite; and one that is no number.
#[test]
fn light_is_told_in_lux_alike_in_c_and_in_rust() {
    let program = example("lux");
    let board = of_repository("boards/lamp.devil");
    let text = fs::read(&board).expect("the board");
    let scale = "298 steps: 1173.0 lux\n-2048 steps: 0.0 lux\n2047 steps: 2047.5 lux\n";
    let infinite = "298 steps: refused 54\n-2048 steps: refused 54\n2047 steps: refused 54\n";
    let no_gain = "298 steps: refused 53\n-2048 steps: refused 53\n2047 steps: refused 53\n";
    for (gain, want) in [(0.5, scale), (f64::MAX, infinite), (f64::NAN, no_gain)] {
        let calibration = Calibration {
            gain,
            offset: 1024.0,
        };
        let told = lux::story(text.clone(), calibration, &[298, -2048, 2047]);
        assert_eq!(told.expect("a story"), want);
        let told = Command::new(of_repository("run"))
            .arg(&program)
            .arg(&board)
            .args([&gain.to_string(), "1024", "298", "-2048", "2047"])
            .output()
            .expect("it runs");
        assert!(told.status.success());
        assert_eq!(String::from_utf8_lossy(&told.stdout), want);
    }
}
