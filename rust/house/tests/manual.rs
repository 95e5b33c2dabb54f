//! The manual, docs/DEVIL.md, has a section for each refusal, under a name that stays.

use house::manual::{numbers, rows, section};
use house::tree::root;
use std::collections::BTreeSet;
use std::fs;

fn read(path: &str) -> String {
    fs::read_to_string(root().join(path)).unwrap()
}

/// The anchor of a heading.
fn anchor(heading: &str) -> String {
    heading.to_lowercase().replace(' ', "-")
}

#[test]
fn every_refusal_has_its_section() {
    let refusals = read("docs/REFUSALS.md");
    let given: BTreeSet<u32> = rows(&refusals).iter().flat_map(|r| numbers(r[1])).collect();
    let manual = read("docs/DEVIL.md");
    let told = rows(&manual)
        .iter()
        .filter(|r| section(r).is_some())
        .flat_map(|r| numbers(r[3]))
        .collect();
    assert!(given.len() > 25, "{} refusals", given.len());
    assert_eq!(given, told);
}

#[test]
fn every_section_is_there() {
    let manual = read("docs/DEVIL.md");
    let headings: Vec<&str> = manual
        .lines()
        .filter_map(|l| l.strip_prefix("## "))
        .collect();
    let mut named = Vec::new();
    for link in manual.split("](#").skip(1) {
        named.push(link.split(')').next().unwrap().to_string());
    }
    let anchors: Vec<String> = headings.iter().map(|h| anchor(h)).collect();
    assert_eq!(named, anchors, "each section once, in its order");
}
