//! `./desfanuk`: one command for people. The proved programs judge, and this one only starts them: what it adds are the
//! files' names, lines and columns, words for numbers, and exit codes: 0 good, 1 refused, and 2 trouble, which is never
//! a verdict.

mod arguments;
mod check;
mod explain;
mod explained;
mod help;
mod json;
mod map;
mod names;
mod paint;
mod programs;
#[allow(dead_code)]
#[path = "../../desfanuk/src/refusal.rs"]
mod refusal;
mod replay;
mod report;
mod slip;
mod source;
mod tokens;
mod verdict;

use std::env;
use std::ffi::OsString;
use std::io::{self, Write};
use std::process::ExitCode;

use report::{plain, Outcome, Report};

fn main() -> ExitCode {
    let arguments: Vec<OsString> = env::args_os().skip(1).collect();
    let report = arguments::follow(&arguments).unwrap_or_else(Report::from);
    let outcome = match write(&report.written) {
        Ok(()) => report.outcome,
        Err(error) => {
            tell(&format!("desfanuk: standard output: {}\n", plain(&error)));
            Outcome::Trouble
        }
    };
    tell(&report.told);
    ExitCode::from(outcome as u8)
}

fn write(written: &str) -> io::Result<()> {
    let mut out = io::stdout().lock();
    out.write_all(written.as_bytes())?;
    out.flush()
}

/// Where standard error is closed too there is nobody to tell, and the exit code remains.
fn tell(told: &str) {
    let _ = io::stderr().lock().write_all(told.as_bytes());
}
