//! Times of loading, proved beside second, and of station calls on small tables and on the largest. Each figure is
//! the best of many rounds, in microseconds. Both implementations load into tables that hold the
//! tables of the round before; nothing is allocated by the caller between rounds.
//!
//!     cargo run --offline --release -p compare --bin time
//!     cargo run --offline --release -p compare --bin time plot > ../docs/times.svg

use std::hint::black_box;
use std::time::Instant;

use compare::both::lent;
use compare::plot::{self, Line};
use compare::{proved, texts};
use desfanuk::raw::{self, ANSWER_WORDS, OPERATION_WORDS};
use second::generate::TableSet;
use second::{Loaded, PARAMETER_WORDS, REGISTER_WORDS, VARIABLE_WORDS};

const ROUNDS: usize = 400;
/// Calls in one measurement of the station.
const CALLS: usize = 20;

/// The best time of a call, in microseconds.
fn best(mut call: impl FnMut()) -> f64 {
    (0..ROUNDS)
        .map(|_| {
            let start = Instant::now();
            call();
            start.elapsed().as_secs_f64() * 1e6
        })
        .fold(f64::INFINITY, f64::min)
}

fn empty() -> TableSet {
    TableSet {
        parameters: vec![0; PARAMETER_WORDS],
        registers: vec![0; REGISTER_WORDS],
        variables: vec![0; VARIABLE_WORDS],
    }
}

/// The best times of loading a text, proved and second.
fn loads(text: &[u8]) -> (f64, f64) {
    let mut set = empty();
    let proved_time = best(|| {
        let (p, r, v) = (&mut set.parameters, &mut set.registers, &mut set.variables);
        black_box(proved::load(black_box(text), p, r, v));
    });
    let second_time = best(|| {
        let (p, r, v) = (&mut set.parameters, &mut set.registers, &mut set.variables);
        black_box(second::load_into(black_box(text), p, r, v));
    });
    (proved_time, second_time)
}

fn load_row(name: &str, text: &[u8]) {
    let (proved_time, second_time) = loads(text);
    println!(
        "| {name} | {} | {proved_time:.1} | {second_time:.1} | {:.2} |",
        text.len(),
        proved_time / second_time
    );
}

/// The time of one begin with its abandon, and of one confirm, over a text's tables.
fn station_row(name: &str, text: &[u8]) {
    let mut set = empty();
    let loaded = proved::load(
        text,
        &mut set.parameters,
        &mut set.registers,
        &mut set.variables,
    );
    let Loaded::Accepted {
        registers,
        variables,
        ..
    } = loaded
    else {
        panic!("{loaded}");
    };
    let tables = proved::words(lent(&set));
    let (mut record, mut marks) = (vec![0; registers], vec![0; variables]);
    let mut answer = [0; ANSWER_WORDS];
    let mut operation = [0; OPERATION_WORDS];
    let begin = best(|| {
        for _ in 0..CALLS {
            operation = [0; OPERATION_WORDS];
            black_box(raw::begin_write(
                tables,
                &record,
                &marks,
                &mut operation,
                black_box(0),
                5,
                &mut answer,
            ));
        }
    });
    assert_eq!(operation[0], 2);
    let begun = operation;
    let confirm = best(|| {
        for _ in 0..CALLS {
            operation = begun;
            black_box(raw::confirm(
                tables,
                &mut record,
                &mut marks,
                &mut operation,
                black_box(0),
                &mut answer,
            ));
        }
    });
    let sound = best(|| {
        for _ in 0..CALLS {
            black_box(raw::sound(tables));
        }
    });
    let calls = CALLS as f64;
    println!(
        "| {name} | {registers} | {variables} | {:.1} | {:.1} | {:.1} |",
        begin / calls,
        confirm / calls,
        sound / calls
    );
}

fn rows() {
    println!("| loading | bytes | proved | second | ratio |");
    println!("|---|---|---|---|---|");
    for (name, text) in texts::rows() {
        load_row(name, &text);
    }
    println!();
    println!("| station call | registers | variables | begin_write | confirm | of which the test of tables (20) |");
    println!("|---|---|---|---|---|---|");
    station_row("small tables", &texts::small());
    station_row("largest tables", &texts::largest());
}

/// How the time of loading grows with the text.
fn growth() -> String {
    let texts = texts::growing();
    let times: Vec<_> = texts.iter().map(|text| loads(text)).collect();
    let line = |name, colour, of: fn(&(f64, f64)) -> f64| Line {
        name,
        colour,
        points: texts
            .iter()
            .zip(&times)
            .map(|(text, time)| (text.len() as f64, of(time)))
            .collect(),
    };
    plot::svg(
        "Loading, by the length of the text",
        "bytes",
        "microseconds",
        &[
            line("ordinary Rust (rust/second)", "#c33", |time| time.1),
            line("proved", "#06c", |time| time.0),
        ],
    )
}

fn main() {
    match std::env::args().nth(1).as_deref() {
        None => rows(),
        Some("plot") => print!("{}", growth()),
        Some(word) => panic!("{word}: plot, or nothing"),
    }
}
