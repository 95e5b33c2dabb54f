//! Writes the page of a description that comes on standard input. `./desfanuk map --html FILE` starts it.
//!
//! A refused text has no page: the refusal is told on standard error, and the exit is 1. It is 2 where
//! reading or writing fails.

use std::io::{self, Read, Write};
use std::process::ExitCode;

use desfanuk::raw::STORE_BYTES;

fn main() -> ExitCode {
    written().unwrap_or_else(|trouble| {
        eprintln!("picture: {trouble}");
        ExitCode::from(2)
    })
}

fn written() -> io::Result<ExitCode> {
    // One byte over the longest text tells as much as all that may follow.
    let most = STORE_BYTES as u64 + 1;
    let mut text = Vec::new();
    io::stdin().take(most).read_to_end(&mut text)?;
    match picture::of_text(text) {
        Ok(page) => {
            let mut out = io::stdout();
            out.write_all(page.as_bytes())?;
            out.flush()?;
            Ok(ExitCode::SUCCESS)
        }
        Err(refused) => {
            eprintln!("{refused}");
            Ok(ExitCode::FAILURE)
        }
    }
}
