//! `explain`: where a text is refused and why, or a map of it.

use std::ffi::OsString;
use std::io;

use crate::check::accepted_line;
use crate::explained::Explained;
use crate::paint::Paint;
use crate::report::{Report, Trouble};
use crate::source::{only, Source};

pub fn explain(files: &[OsString]) -> Result<Report, Trouble> {
    let source = Source::description(only(files, "explain FILE")?)?;
    let explained = Explained::ask(&source.text)?;
    let paint = Paint::on(&io::stdout());
    Ok(match explained.refused_at_length(paint, &source) {
        Some(all) => Report::refused(all),
        None => {
            let line = accepted_line(paint, &source.name, explained.verdict);
            Report::good(format!("{line}\n{}", explained.rest))
        }
    })
}
