//! Reads scripts from standard input, each a framed text and then calls over it, and writes what each call answers.

use std::error::Error;
use std::io::{self, BufWriter, Read, Write};

fn main() -> Result<(), Box<dyn Error>> {
    let mut input = Vec::new();
    io::stdin().lock().read_to_end(&mut input)?;
    let mut out = BufWriter::new(io::stdout().lock());
    for line in second::replay::replay(&input) {
        writeln!(out, "{line}")?;
    }
    out.flush()?;
    Ok(())
}
