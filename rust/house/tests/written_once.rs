//! No two proofs differ only in names and numbers.

use house::proofs::{alike, argued, laws, Argument};
use house::tree::{below, File};

/// A law of so many lines or more, a head and two others, is written once.
const LEAST_LAW: usize = 3;
/// So is what a function's proof argues itself, where that is so many clauses or more.
const LEAST_CLAUSES: usize = 2;

/// Is this what a function's proof answers to its goals, or a whole proof of a function that walks it by hand?
fn is_function(file: &File) -> bool {
    ["/Answers.antt", "/Proof.antt"]
        .iter()
        .any(|name| file.path.ends_with(name))
}

/// Laws are in all other files of proofs/ but for the statements of loops and the lists of modules.
fn is_law(file: &File) -> bool {
    let other = ["/Invariants.antt", "/Lib.antt"];
    file.path.contains("/proofs/")
        && !is_function(file)
        && !other.iter().any(|name| file.path.ends_with(name))
}

/// Fewer arguments than `fewest` would mean that they were not found.
fn none_alike(what: &str, arguments: &[Argument], fewest: usize, least: usize) {
    assert!(arguments.len() > fewest, "{} {what} read", arguments.len());
    let groups = alike(arguments, least);
    for group in &groups {
        println!("{} lines:", group[0].lines);
        for argument in group {
            println!("    {}", argument.name);
        }
    }
    assert!(
        groups.is_empty(),
        "{} groups of {what} differ only in names and numbers",
        groups.len()
    );
}

#[test]
fn no_two_laws_differ_only_in_names_and_numbers() {
    let mut all = Vec::new();
    for file in below("crates", ".antt").iter().filter(|f| is_law(f)) {
        for mut law in laws(&file.text) {
            law.name = format!("{}: {}", file.path, law.name);
            all.push(law);
        }
    }
    none_alike("laws", &all, 400, LEAST_LAW);
}

#[test]
fn no_two_functions_are_argued_alike() {
    let files = below("crates", ".antt");
    let all: Vec<Argument> = files
        .iter()
        .filter(|f| is_function(f))
        .map(|f| argued(&f.path, &f.text))
        .collect();
    none_alike("functions' proofs", &all, 200, LEAST_CLAUSES);
}
