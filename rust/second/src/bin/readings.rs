//! Reads records of a calibration and a reading from standard input, and writes each in units, or its refusal, on a
//! line.

use std::io::{self, BufWriter, Read, Write};

fn main() -> io::Result<()> {
    let mut input = Vec::new();
    io::stdin().lock().read_to_end(&mut input)?;
    let mut out = BufWriter::new(io::stdout().lock());
    for line in second::units::readings(&input) {
        writeln!(out, "{line}")?;
    }
    out.flush()
}
