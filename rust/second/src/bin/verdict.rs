//! Reads a text from standard input and writes its verdict on one line.

use std::io::{self, Read};

fn main() -> io::Result<()> {
    let mut text = Vec::new();
    io::stdin().lock().read_to_end(&mut text)?;
    println!("{}", second::load(&text));
    Ok(())
}
