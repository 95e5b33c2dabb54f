//! The documents name what is there.

use house::documents::{defined, names, paths, taken, Looks};
use house::tree::{below, root, File};
use std::collections::HashSet;
use std::fs;

fn documents() -> Vec<File> {
    let mut all = below("docs", ".md");
    for path in [
        "README.md",
        "CONTRIBUTING.md",
        "boards/README.md",
        "rust/command/README.md",
        "rust/second/README.md",
        "rust/compare/README.md",
    ] {
        all.push(File {
            path: path.to_string(),
            text: fs::read_to_string(root().join(path)).unwrap(),
        });
    }
    all
}

#[test]
fn every_path_is_there() {
    let mut lost = Vec::new();
    let mut read = 0;
    for document in documents() {
        for path in paths(&document.text) {
            read += 1;
            if !root().join(&path).exists() {
                lost.push(format!("{}: {path}", document.path));
            }
        }
    }
    assert!(read > 100, "{read} paths read");
    assert!(lost.is_empty(), "not there:\n{}", lost.join("\n"));
}

/// Every word of the code, and of what it is held to by definitions where `antt` says so, as names are written there.
fn words(antt: bool) -> HashSet<String> {
    let mut words = HashSet::new();
    let definitions = antt.then_some(("crates", ".antt"));
    for (folder, ending) in definitions.into_iter().chain([
        ("crates", ".rt"),
        ("crates", ".edit"),
        ("rust", ".rs"),
        ("include", ".h"),
        ("rust", ".toml"),
    ]) {
        for file in below(folder, ending) {
            let name = file.path.rsplit('/').next().unwrap();
            words.insert(name.split('.').next().unwrap().to_string());
            let ends = |c: char| !(c.is_alphanumeric() || "-_".contains(c));
            words.extend(file.text.split(ends).map(String::from));
        }
    }
    words
}

/// Every name that specifications and proofs define, or take from the kit.
fn definitions() -> HashSet<String> {
    let mut names = HashSet::new();
    for file in below("crates", ".antt") {
        names.extend(defined(&file.text));
        names.extend(taken(&file.text));
    }
    names
}

/// A definition, a law or a field that a document names is defined in crates/, or the kit's; a type is at least a word
/// of the sources, and a function of the code.
#[test]
fn every_name_is_there() {
    let (words, code) = (words(true), words(false));
    let definitions = definitions();
    let mut lost = Vec::new();
    let mut read = 0;
    for document in documents() {
        for (looks, name) in names(&document.text) {
            read += 1;
            let there = match looks {
                Looks::Definition => definitions.contains(&name),
                Looks::Snake => definitions.contains(&name) || code.contains(&name),
                Looks::Type => words.contains(&name),
            };
            if !there {
                lost.push(format!("{}: {name}", document.path));
            }
        }
    }
    assert!(read > 100, "{read} names read");
    assert!(lost.is_empty(), "not there:\n{}", lost.join("\n"));
}

/// Every board is on the list of boards.
#[test]
fn every_board_is_listed() {
    let list = fs::read_to_string(root().join("boards/README.md")).unwrap();
    let boards = below("boards", ".devil");
    let missing: Vec<&str> = boards
        .iter()
        .map(|b| b.path.strip_prefix("boards/").unwrap())
        .filter(|name| !list.contains(&format!("| {name} |")))
        .collect();
    assert!(boards.len() > 5 && missing.is_empty(), "{missing:?}");
}
