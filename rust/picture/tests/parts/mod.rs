//! The boards, and a reader of pages: what a person finds on them, by the tags that stand around it.
#![allow(dead_code)]

pub mod second;

use std::fs;
use std::path::PathBuf;

pub fn root() -> PathBuf {
    PathBuf::from(env!("CARGO_MANIFEST_DIR")).join("../..")
}

/// The name and the text of each board.
pub fn boards() -> Vec<(String, Vec<u8>)> {
    let mut boards: Vec<(String, Vec<u8>)> = fs::read_dir(root().join("boards"))
        .expect("boards/")
        .map(|entry| entry.expect("an entry").path())
        .filter(|path| path.extension().is_some_and(|end| end == "devil"))
        .map(|path| {
            let name = path.file_stem().expect("a name").to_string_lossy();
            (name.into_owned(), fs::read(&path).expect("a text"))
        })
        .collect();
    boards.sort();
    assert!(boards.len() >= 12, "{} boards", boards.len());
    boards
}

pub fn page(text: &[u8]) -> String {
    picture::of_text(text).expect("a board is accepted")
}

/// Every stretch of a text that stands between two others.
pub fn all<'t>(text: &'t str, before: &str, behind: &str) -> Vec<&'t str> {
    text.split(before)
        .skip(1)
        .map(|rest| rest.split(behind).next().unwrap_or(rest))
        .collect()
}

/// The one stretch that stands between two others.
pub fn one<'t>(text: &'t str, before: &str, behind: &str) -> &'t str {
    let found = all(text, before, behind);
    assert_eq!(found.len(), 1, "{before} .. {behind} in {text}");
    found[0]
}

/// The panel of a variable.
pub fn panel<'p>(page: &'p str, name: &str) -> &'p str {
    one(page, &format!("id=\"v-{name}\" "), "</article>")
}

/// A value as the page writes it.
pub fn value(words: &str) -> i64 {
    words.replace('\u{2212}', "-").parse().expect("a value")
}

/// A number of a register as the page writes it.
pub fn number(words: &str) -> u32 {
    let digits = words.strip_prefix("0x").expect("a number in hex");
    u32::from_str_radix(digits, 16).expect("a number in hex")
}
