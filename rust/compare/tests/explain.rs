//! What the program `explain` writes, over every board, over a refusal of each number from 3 to 16 and over bits that
//! are listed out of order: held to files that a person has read. `rt run` in crates/explain builds the
//! program; `cargo test` wants it to be there.
//!
//! explain/NAME.devil is a text and explain/NAME.txt what is written on it; for boards/NAME.devil that is
//! explain/NAME.txt too.

use second::generate::{self, Random};
use std::collections::BTreeSet;
use std::fs;
use std::path::PathBuf;

use compare::programs::{root, written};
use house::manual::sections;

/// What the program writes on a text.
fn explained(text: &[u8]) -> String {
    written("explain", text)
}

/// The texts of a folder of the repository, by name.
fn texts(folder: &str) -> Vec<PathBuf> {
    let mut all: Vec<PathBuf> = fs::read_dir(root().join(folder))
        .unwrap()
        .map(|entry| entry.unwrap().path())
        .filter(|path| path.extension().is_some_and(|end| end == "devil"))
        .collect();
    all.sort();
    all
}

/// Holds what is written on each text of a folder to its file, and gives the numbers of the refusals.
fn hold(folder: &str) -> BTreeSet<u32> {
    let mut numbers = BTreeSet::new();
    for path in texts(folder) {
        let written = explained(&fs::read(&path).unwrap());
        let name = path.file_stem().unwrap().to_str().unwrap();
        let file = root().join(format!("rust/compare/explain/{name}.txt"));
        let stored = fs::read_to_string(&file).unwrap_or_default();
        assert!(
            written == stored,
            "{}: what is written is not what {} has:\n{written}",
            path.display(),
            file.display()
        );
        numbers.extend(refusal(&written));
    }
    numbers
}

/// The number of the refusal that is explained, if it is one.
fn refusal(written: &str) -> Option<u32> {
    let rest = written.strip_prefix("refused ")?;
    Some(rest.split(' ').next().unwrap().parse().unwrap())
}

#[test]
fn every_board_has_its_map() {
    assert!(!texts("boards").is_empty());
    assert!(hold("boards").is_empty(), "every board is accepted");
}

#[test]
fn every_refusal_is_explained() {
    let numbers = hold("rust/compare/explain");
    assert_eq!(numbers, (3..=16).collect());
}

/// What is written on a refused text ends by naming the sections of the manual that tell of its refusal.
#[test]
fn every_refusal_names_its_sections() {
    let manual = fs::read_to_string(root().join("docs/DEVIL.md")).unwrap();
    let mut numbers = BTreeSet::new();
    let long = vec![b' '; 8193];
    let stored = texts("rust/compare/explain");
    for text in stored.iter().map(|p| fs::read(p).unwrap()).chain([long]) {
        let written = explained(&text);
        let Some(number) = refusal(&written) else {
            continue;
        };
        let named = sections(&manual, number).join("; ");
        assert!(!named.is_empty());
        let last = format!("\n\nsee docs/DEVIL.md: {named}\n");
        assert!(written.ends_with(&last), "{written}");
        numbers.insert(number);
    }
    assert_eq!(numbers, (2..=16).collect());
}

/// A map fits a terminal of 80 columns.
#[test]
fn every_map_is_narrow() {
    let mut maps = 0;
    for path in texts("boards").iter().chain(&texts("rust/compare/explain")) {
        let written = explained(&fs::read(path).unwrap());
        if written.starts_with("accepted") {
            maps += 1;
            let wide = written.lines().find(|line| line.len() > 80);
            assert_eq!(wide, None, "{}", path.display());
        }
    }
    assert!(maps > texts("boards").len());
}

/// Bytes that a terminal would take for a command, or for no character.
const STRANGE: [&[u8]; 9] = [
    b"\x1b[31m",
    b"\x00",
    b"\x7f",
    b"\r",
    b"\xff",
    b"\xc2\x9b",
    b"\xe2\x82",
    b"\xed\xa0\x80",
    "/* é */".as_bytes(),
];

/// Whatever the text holds, what is written on it is UTF-8 (`explained` sees to that) and holds no control character
/// but tab and newline.
#[test]
fn nothing_strange_is_written() {
    let mut random = Random::new(23);
    let mut refused = 0;
    for _ in 0..400 {
        let mut text = generate::text(&mut random);
        for _ in 0..random.between(0, 4) {
            let at = random.below(text.len() + 1);
            let bytes = STRANGE[random.below(STRANGE.len())];
            text.splice(at..at, bytes.iter().copied());
        }
        let written = explained(&text);
        let control = |c: &char| c.is_control() && *c != '\t' && *c != '\n';
        assert_eq!(written.chars().find(control), None, "{text:?}");
        refused += usize::from(written.starts_with("refused"));
    }
    assert!(refused > 100);
}

#[test]
fn a_text_that_is_too_long_is_told_so() {
    let written = explained(&[b' '; 8193]);
    assert!(written.starts_with("refused 2 0\n"));
}
