//! `tokens`: what the proved program `tokens` finds in a text.

use std::ffi::OsString;
use std::io;

use crate::explained::Explained;
use crate::paint::Paint;
use crate::programs;
use crate::report::{Report, Trouble};
use crate::source::{only, visible, Source};
use crate::verdict::{refused_line, Position, Verdict};

pub struct Token {
    /// `name`, `word`, `number`, `bits`, `sign` or `bad`.
    pub kind: String,
    pub place: usize,
    /// The place behind it.
    pub end: usize,
}

/// The tokens of a text, and what reading it comes to, as the program writes that.
pub fn ask(text: &[u8]) -> Result<(Vec<Token>, String), Trouble> {
    let told = visible(&programs::told("tokens", &programs::framed(text))?);
    let lines: Vec<&str> = told.lines().collect();
    let [tokens, reading] = lines[..] else {
        return Err(Trouble::new("the program tokens told something else"));
    };
    Ok((listed(tokens), reading.to_string()))
}

/// Words in pairs: a kind, and PLACE..END, for a number with `=VALUE` behind it.
fn listed(line: &str) -> Vec<Token> {
    let words: Vec<&str> = line.split(' ').skip(1).collect();
    let token = |pair: &[&str]| {
        let [kind, span] = *pair else { return None };
        let span = span.split('=').next()?;
        let (place, end) = span.split_once("..").unwrap_or((span, span));
        Some(Token {
            kind: kind.to_string(),
            place: place.parse().ok()?,
            end: end.parse().ok()?,
        })
    };
    words.chunks(2).filter_map(token).collect()
}

pub fn tokens(files: &[OsString]) -> Result<Report, Trouble> {
    let source = Source::description(only(files, "tokens FILE")?)?;
    let paint = Paint::on(&io::stdout());
    let explained = Explained::ask(&source.text)?;
    if let Verdict::Refused { number: 2, .. } = explained.verdict {
        let line = explained.refused_in_a_line(paint, &source);
        return Ok(Report::refused(line.unwrap_or_default()));
    }
    let (tokens, reading) = ask(&source.text)?;
    let rows: String = tokens
        .iter()
        .map(|token| row(&source.text, token))
        .collect();
    if reading.starts_with("reads ") {
        return Ok(Report::good(rows));
    }
    let Verdict::Refused { number, place } = Verdict::of(&reading)? else {
        return Err(Trouble::new(format!("the program tokens told `{reading}`")));
    };
    let first = match explained.verdict {
        Verdict::Refused {
            number: n,
            place: p,
        } if (n, p) == (number, place) => explained
            .refused_in_a_line(paint, &source)
            .unwrap_or_default(),
        _ => refused_line(paint, &source.name, &source.text, number, place, &reading),
    };
    Ok(Report::refused(first + &rows))
}

/// A token by its place, its kind and its bytes.
fn row(text: &[u8], token: &Token) -> String {
    let Position { line, column } = Position::of(text, token.place);
    let bytes = text.get(token.place..token.end).unwrap_or_default();
    let at = format!("{line}:{column}");
    let row = format!("{at:<8} {:<7} {}", token.kind, visible(bytes));
    row.trim_end().to_string() + "\n"
}
