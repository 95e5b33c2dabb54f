//! Reads framed texts from standard input and writes the verdict of each on a line.

use std::error::Error;
use std::io::{self, BufWriter, Read, Write};

fn main() -> Result<(), Box<dyn Error>> {
    let mut input = Vec::new();
    io::stdin().lock().read_to_end(&mut input)?;
    let mut out = BufWriter::new(io::stdout().lock());
    for text in second::frame::read_all(&input)? {
        writeln!(out, "{}", second::load(text))?;
    }
    out.flush()?;
    Ok(())
}
