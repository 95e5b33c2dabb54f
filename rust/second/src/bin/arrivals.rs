//! Reads framed scripts of pieces from standard input and writes what each call answers.

use std::error::Error;
use std::io::{self, BufWriter, Read, Write};

fn main() -> Result<(), Box<dyn Error>> {
    let mut input = Vec::new();
    io::stdin().lock().read_to_end(&mut input)?;
    let mut out = BufWriter::new(io::stdout().lock());
    for script in second::frame::read_all(&input)? {
        for line in second::pieces::script::run(script) {
            writeln!(out, "{line}")?;
        }
    }
    out.flush()?;
    Ok(())
}
