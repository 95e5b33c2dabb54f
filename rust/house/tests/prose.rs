//! Prose has at most 120 characters a line: documents throughout, and comments that have a line to themselves.
//!
//! Excepted are rows of tables in three documents. Each of those sets a sentence of the papers, a wrong program or an
//! older form beside all that says, proves, refuses or replaces it; Markdown gives a row one line, and such a row is
//! one thing and is not cut in two. Elsewhere a row that would be wider goes on in the next one, under an empty first
//! cell.
//!
//! Code is not prose: `rt fmt` and `cargo fmt` lay that out. Nor are texts that a program reads or writes.

use house::prose::{long_lines, MOST};
use house::tree::{below, root, File};
use std::fs;

const WIDE_ROWS: [&str; 3] = ["docs/CLAIMS.md", "docs/DESIGN-PASS.md", "docs/SENTENCES.md"];

/// Files by themselves, documents and scripts.
const ALONE: [&str; 12] = [
    "README.md",
    "CONTRIBUTING.md",
    "crates.txt",
    "desfanuk",
    "first",
    "run",
    ".ci/pack",
    ".ci/progress",
    ".ci/run",
    ".ci/x86-64",
    "rust/compare/measure",
    "rust/compare/native",
];

/// What is held, by folder and by the ending of the name.
const FOLDERS: [(&str, &[&str]); 5] = [
    ("boards", &[".md", ".devil", ".script"]),
    ("crates", &[".rt", ".antt"]),
    ("docs", &[".md"]),
    ("include", &[".c", ".h"]),
    ("rust", &[".md", ".rs", ".toml"]),
];

fn files() -> Vec<File> {
    let alone = ALONE.iter().map(|path| File {
        path: path.to_string(),
        text: fs::read_to_string(root().join(path)).unwrap(),
    });
    let mut all: Vec<File> = alone.collect();
    for (folder, endings) in FOLDERS {
        for ending in endings {
            all.extend(below(folder, ending));
        }
    }
    all.retain(|f| !f.path.starts_with("rust/target/"));
    all
}

fn is_excepted(file: &File, line: &str) -> bool {
    WIDE_ROWS.contains(&file.path.as_str()) && line.starts_with('|')
}

#[test]
fn no_line_of_prose_is_long() {
    let mut long = Vec::new();
    let mut read = 0;
    for file in files() {
        read += 1;
        for (at, line) in long_lines(&file) {
            if !is_excepted(&file, line) {
                long.push(format!("{}:{at}: {}", file.path, line.chars().count()));
            }
        }
    }
    assert!(read > 500, "{read} files read");
    assert!(long.is_empty(), "over {MOST}:\n{}", long.join("\n"));
}
