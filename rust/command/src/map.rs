//! `map`: who holds which bit of which register.

mod confirmed;
mod listed;

use std::ffi::OsString;
use std::io;

use crate::check::members;
use crate::explained::Explained;
use crate::paint::Paint;
use crate::programs::drawn;
use crate::report::{Report, Trouble};
use crate::source::{only, Source};
use crate::verdict::Verdict;

/// A form of the map of an accepted text.
type Form = fn(&Source, &Explained) -> Result<String, Trouble>;

/// The forms besides the text: the option, and what writes it. A further form is a row here and a line of the help.
pub const FORMS: [(&str, Form); 2] = [("--html", html), ("--json", json)];

pub fn map(files: &[OsString], option: Option<&str>) -> Result<Report, Trouble> {
    let source = Source::description(only(files, "map [--html | --json] FILE")?)?;
    let explained = Explained::ask(&source.text)?;
    if let Verdict::Refused { .. } = explained.verdict {
        return Ok(refused(&source, &explained, option));
    }
    let asked = FORMS.iter().find(|(name, _)| Some(*name) == option);
    let form = asked.map_or(text as Form, |(_, form)| *form);
    Ok(Report::good(form(&source, &explained)?))
}

/// A map is often kept in a file, so the verdict goes beside it; JSON has its own words for it.
fn refused(source: &Source, explained: &Explained, option: Option<&str>) -> Report {
    if option == Some("--json") {
        return Report::refused(format!("{{{}}}\n", members(source, explained)));
    }
    let paint = Paint::on(&io::stderr());
    let line = explained.refused_in_a_line(paint, source);
    Report::refused_beside(line.unwrap_or_default())
}

/// What the proved program draws.
fn text(_: &Source, explained: &Explained) -> Result<String, Trouble> {
    Ok(explained.rest.clone())
}

/// A page for a browser. The picture has loaded the text by itself, through the proved archive.
fn html(source: &Source, _: &Explained) -> Result<String, Trouble> {
    let page = drawn(&source.text)?;
    String::from_utf8(page).map_err(|_| Trouble::new("the program picture wrote no page"))
}

fn json(source: &Source, explained: &Explained) -> Result<String, Trouble> {
    let lists = listed::members(&source.text, explained.verdict)?;
    Ok(format!("{{{},{lists}}}\n", members(source, explained)))
}
