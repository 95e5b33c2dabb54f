//! Plays generated texts, damaged tables and lives of stations through the proved archive and the
//! second implementation for so many minutes, and stops at a difference:
//!
//!     cargo run --offline --release -p compare --bin soak -- MINUTES [SEED]

use std::env;
use std::panic;
use std::process::ExitCode;
use std::time::{Duration, Instant, SystemTime};

use compare::archive::Archive;
use compare::soak::{Soak, KINDS};

fn main() -> ExitCode {
    let mut words = env::args().skip(1);
    let minutes: Option<f64> = words.next().and_then(|word| word.parse().ok());
    let Some(minutes) = minutes.filter(|minutes| *minutes > 0.0) else {
        eprintln!("usage: soak MINUTES [SEED]");
        return ExitCode::from(2);
    };
    let seed: Option<u64> = words.next().and_then(|word| word.parse().ok());
    let seed = seed.unwrap_or_else(now);
    println!("seed {seed}");
    // a failed assertion is a difference, which is told below
    panic::set_hook(Box::new(|_| {}));
    soak(seed, Duration::from_secs_f64(60.0 * minutes))
}

/// A seed that is another one each time.
fn now() -> u64 {
    let passed = SystemTime::UNIX_EPOCH.elapsed().unwrap_or_default();
    passed.as_micros() as u64
}

fn soak(seed: u64, time: Duration) -> ExitCode {
    let mut soak = Soak::new(Archive::PROVED, seed);
    let begun = Instant::now();
    let mut difference = None;
    while difference.is_none() && begun.elapsed() < time {
        difference = soak.round();
    }
    for ((kind, _), count) in KINDS.iter().zip(soak.played) {
        println!("{count:>12} {kind}");
    }
    match difference {
        None => {
            println!("nothing differed");
            ExitCode::SUCCESS
        }
        Some(difference) => {
            print!("{difference}");
            ExitCode::FAILURE
        }
    }
}
