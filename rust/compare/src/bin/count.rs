//! The calls whose instructions `rust/compare/count` has callgrind count: a text is loaded once, and then loaded again
//! or its tables tested (refusal 20), so many times.
//!
//!     count write FOLDER       writes the texts of docs/TIMES.md, as 0, 1 and so on, and prints what each is called
//!     count load FILE TIMES
//!     count test FILE TIMES

use std::hint::black_box;
use std::{env, fs};

use compare::{proved, texts};
use desfanuk::raw;
use second::{PARAMETER_WORDS, REGISTER_WORDS, VARIABLE_WORDS};

fn write(folder: &str) {
    for (number, (name, text)) in texts::rows().iter().enumerate() {
        fs::write(format!("{folder}/{number}"), text).expect("a folder to write to");
        println!("{name}");
    }
}

fn call(text: &[u8], loads: usize, tests: usize) {
    let mut parameters = vec![0; PARAMETER_WORDS];
    let mut registers = vec![0; REGISTER_WORDS];
    let mut variables = vec![0; VARIABLE_WORDS];
    let (p, r, v) = (&mut parameters, &mut registers, &mut variables);
    for _ in 0..1 + loads {
        black_box(proved::load(black_box(text), p, r, v));
    }
    let tables = raw::Tables {
        parameters: &parameters,
        registers: &registers,
        variables: &variables,
    };
    for _ in 0..tests {
        black_box(raw::sound(black_box(tables)));
    }
}

fn main() {
    let words: Vec<String> = env::args().skip(1).collect();
    let words: Vec<&str> = words.iter().map(String::as_str).collect();
    let text = |file| fs::read(file).expect("a text");
    let number = |times: &str| times.parse().expect("how often");
    match words.as_slice() {
        ["write", folder] => write(folder),
        ["load", file, times] => call(&text(file), number(times), 0),
        ["test", file, times] => call(&text(file), 0, number(times)),
        _ => panic!("write FOLDER, load FILE TIMES or test FILE TIMES"),
    }
}
