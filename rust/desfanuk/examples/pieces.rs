//! A description that arrives in pieces, as from a slow line: each is taken as it comes, and the text
//! is judged when it has ended.
//!
//!     cargo run --offline --release -p desfanuk --example pieces BYTES < DESCRIPTION
//!
//! include/pieces.c is the same program in C.

use std::error::Error;
use std::io::{self, Read};
use std::{cmp, env};

use desfanuk::{Pieces, Verdict};

/// What is answered to a text that comes in pieces of so many bytes.
pub fn story(mut text: impl Read, bytes: usize) -> io::Result<String> {
    let mut pieces = Pieces::new();
    let mut buffer = vec![0; cmp::max(bytes, 1)];
    let mut told = String::new();
    loop {
        let length = text.read(&mut buffer)?;
        if length == 0 {
            break;
        }
        told += &match pieces.take(&buffer[..length]) {
            Ok(()) => format!("{length} bytes: more\n"),
            Err(refused) => format!("{length} bytes: {}\n", Verdict::Refused(refused)),
        };
    }
    told += &match pieces.end() {
        Ok(description) => format!(
            "end: accepted {} {} {}\n",
            description.parameters(),
            description.registers(),
            description.variables()
        ),
        Err(refused) => format!("end: {}\n", Verdict::Refused(refused)),
    };
    Ok(told)
}

fn main() -> Result<(), Box<dyn Error>> {
    let bytes = env::args().nth(1).ok_or("usage: pieces BYTES")?.parse()?;
    print!("{}", story(io::stdin().lock(), bytes)?);
    Ok(())
}
