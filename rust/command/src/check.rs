//! `check`: the verdict on each file, a line each.

use std::ffi::{OsStr, OsString};
use std::io;

use crate::explained::Explained;
use crate::json;
use crate::paint::Paint;
use crate::report::{Report, Trouble};
use crate::source::Source;
use crate::verdict::{Position, Verdict};

/// A file in trouble does not keep the others from their verdicts.
pub fn check(files: &[OsString], as_json: bool) -> Result<Report, Trouble> {
    if files.is_empty() {
        return Err(Trouble::new("usage: desfanuk check [--json] FILE.."));
    }
    let mut all = Report::good(String::new());
    for file in files {
        all += one(file, as_json).unwrap_or_else(Report::from);
    }
    Ok(all)
}

fn one(file: &OsStr, as_json: bool) -> Result<Report, Trouble> {
    let source = Source::description(file)?;
    let explained = Explained::ask(&source.text)?;
    let line = if as_json {
        format!("{{{}}}\n", members(&source, &explained))
    } else {
        in_words(&source, &explained)
    };
    Ok(match explained.verdict {
        Verdict::Accepted { .. } => Report::good(line),
        Verdict::Refused { .. } => Report::refused(line),
    })
}

fn in_words(source: &Source, explained: &Explained) -> String {
    let paint = Paint::on(&io::stdout());
    explained
        .refused_in_a_line(paint, source)
        .unwrap_or_else(|| accepted_line(paint, &source.name, explained.verdict))
}

/// `FILE: accepted: ..`, with the counts.
pub fn accepted_line(paint: Paint, name: &str, verdict: Verdict) -> String {
    let Verdict::Accepted {
        parameters,
        registers,
        variables,
    } = verdict
    else {
        return String::new();
    };
    format!(
        "{} {} {}, {}, {}\n",
        paint.bold(&format!("{name}:")),
        paint.green("accepted:"),
        counted(parameters, "parameter"),
        counted(registers, "register"),
        counted(variables, "variable")
    )
}

fn counted(count: usize, what: &str) -> String {
    let ending = if count == 1 { "" } else { "s" };
    format!("{count} {what}{ending}")
}

/// The verdict as members of a JSON object.
pub fn members(source: &Source, explained: &Explained) -> String {
    let file = json::text(&source.name);
    match explained.verdict {
        Verdict::Accepted {
            parameters,
            registers,
            variables,
        } => format!(
            "\"file\":{file},\"verdict\":\"accepted\",\"counts\":{{\"parameters\":{parameters},\
             \"registers\":{registers},\"variables\":{variables}}}"
        ),
        Verdict::Refused { number, place } => {
            let Position { line, column } = Position::of(&source.text, place);
            let causes = json::list(explained.causes().iter().map(|cause| json::text(cause)));
            format!(
                "\"file\":{file},\"verdict\":\"refused\",\"number\":{number},\"place\":{place},\
                 \"line\":{line},\"column\":{column},\"rule\":{},\"causes\":{causes}",
                json::text(&explained.rule())
            )
        }
    }
}
