//! The texts whose loading is timed.

use second::generate::{valid, Random};
use second::TEXT_BYTES;

const NE2000: &[u8] = include_bytes!("../../../boards/ne2000.devil");

/// The rows of docs/TIMES.md: what each is called, and its text.
pub fn rows() -> Vec<(&'static str, Vec<u8>)> {
    let middle = differ_in_the_middle();
    vec![
        ("4 registers, 1 variable", small()),
        ("12 registers, 24 variables", registers(12, "", "")),
        ("generated, about 1,000 bytes", near(1000)),
        ("boards/ne2000.devil", NE2000.to_vec()),
        ("64 registers, 128 variables", largest()),
        ("the same, filled with blanks", filled(largest(), false)),
        ("the same, with long names", begin_alike(64)),
        (
            "the same, names that differ in the middle only",
            middle.clone(),
        ),
        ("that at the limit, by a comment", filled(middle, true)),
    ]
}

/// Four registers, and one variable that takes them all.
pub fn small() -> Vec<u8> {
    b"device d(b:bit[8] port@{0..3}){register p=b:bit[8];register q=b@1:bit[8];\
        register r=b@2:bit[8];register s=b@3:bit[8];variable v=p#q#r#s:int(32);}"
        .to_vec()
}

/// The generated text whose length is nearest to this one.
pub fn near(length: usize) -> Vec<u8> {
    let mut random = Random::new(601);
    (0..3000)
        .map(|_| valid(&mut random))
        .min_by_key(|text| text.len().abs_diff(length))
        .expect("some text")
}

/// So many registers, each with two variables of four bits. A name is a number with something before and behind it.
pub fn registers(count: usize, before: &str, behind: &str) -> Vec<u8> {
    let mut text = "device d(b:bit[8] port@{0..63}){".to_string();
    for r in 0..count {
        text += &format!("register {before}r{r}{behind}=b@{r}:bit[8];");
    }
    for r in 0..count {
        for (name, bits) in [('h', "7..4"), ('l', "3..0")] {
            text +=
                &format!("variable {before}{name}{r}{behind}={before}r{r}{behind}[{bits}]:int(4);");
        }
    }
    text += "}";
    text.into_bytes()
}

/// The greatest length of names, up to 63, with which this text is within the longest one.
fn longest(text: impl Fn(usize) -> Vec<u8>) -> usize {
    (1..64)
        .take_while(|length| text(*length).len() <= TEXT_BYTES)
        .last()
        .expect("short names fit")
}

/// 64 registers and 128 variables: the largest tables.
pub fn largest() -> Vec<u8> {
    registers(64, "", "")
}

/// So many registers, with long names that all begin alike.
pub fn begin_alike(count: usize) -> Vec<u8> {
    let length = longest(|length| registers(64, &"n".repeat(length), ""));
    registers(count, &"n".repeat(length), "")
}

/// The largest tables, with long names that begin and end alike, and differ in the middle only.
pub fn differ_in_the_middle() -> Vec<u8> {
    let named = |length: usize| {
        let behind = "n".repeat(length / 2);
        registers(64, &"n".repeat(length - length / 2), &behind)
    };
    named(longest(named))
}

/// A text made as long as a text may be, with blanks or with a comment.
pub fn filled(mut text: Vec<u8>, comment: bool) -> Vec<u8> {
    if comment {
        text.extend(b"//");
    }
    text.resize(TEXT_BYTES, if comment { b'n' } else { b' ' });
    text
}

/// Texts of growing length up to the limit: long names, and more and more registers.
pub fn growing() -> Vec<Vec<u8>> {
    (8..=64).step_by(4).map(begin_alike).collect()
}
