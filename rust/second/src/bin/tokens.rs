//! For each framed text on standard input, its tokens up to the end or to what is none, and what
//! reading it comes to: the counts of parameters, registers and variables, or refusal 3, 4 or 5.

use std::error::Error;
use std::io::{self, BufWriter, Read, Write};

fn main() -> Result<(), Box<dyn Error>> {
    let mut input = Vec::new();
    io::stdin().lock().read_to_end(&mut input)?;
    let mut out = BufWriter::new(io::stdout().lock());
    for text in second::frame::read_all(&input)? {
        writeln!(out, "{}", second::token_line(text))?;
        writeln!(out, "{}", second::outline(text))?;
    }
    out.flush()?;
    Ok(())
}
