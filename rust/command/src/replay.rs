//! `replay`: a station's calls, played over a description by the proved program, and its answers in words.

mod calls;
mod script;
mod words;

use std::collections::BTreeMap;
use std::ffi::OsString;
use std::io;

use crate::explained::Explained;
use crate::names::Names;
use crate::paint::Paint;
use crate::programs::{framed, told};
use crate::report::{Outcome, Report, Trouble};
use crate::slip::meant;
use crate::source::{only, visible, Source};
use script::Line;

/// Bytes that the proved program reads.
const INPUT_BYTES: usize = 1_048_576;

pub fn replay(files: &[OsString], is_framed: bool) -> Result<Report, Trouble> {
    if is_framed {
        return as_it_is(files);
    }
    let [file, script] = files else {
        return Err(Trouble::new("usage: desfanuk replay FILE SCRIPT"));
    };
    if file == "-" && script == "-" {
        return Err(Trouble::new(
            "only one of FILE and SCRIPT can be standard input",
        ));
    }
    let source = Source::description(file)?;
    let script = Source::whole(script, INPUT_BYTES)?;
    let explained = Explained::ask(&source.text)?;
    match explained.refused_at_length(Paint::on(&io::stdout()), &source) {
        Some(all) => Ok(Report::refused(all)),
        None => play(&source.text, &script),
    }
}

/// Every line is understood before the first is played.
fn play(text: &[u8], script: &Source) -> Result<Report, Trouble> {
    let mut lines = script::read(&script.text);
    let names = Names::ask(text)?;
    let indices = looked_up(text, &lines)?;
    for line in &mut lines {
        line.name(&indices, |name| {
            let near = meant(name, names.variables.iter().map(String::as_str));
            format!("there is no variable `{name}`{near}")
        });
    }
    let faults: String = lines
        .iter()
        .filter_map(|line| Some((line.number, line.fault()?)))
        .map(|(number, fault)| format!("{}:{number}: {fault}\n", script.name))
        .collect();
    if !faults.is_empty() {
        return Ok(Report {
            told: faults + "desfanuk: nothing was played\n",
            outcome: Outcome::Trouble,
            ..Report::good(String::new())
        });
    }
    let calls: Vec<String> = lines.iter().filter_map(Line::framed).collect();
    let answers = answered(text, &calls)?;
    Ok(Report::good(words::beside(&lines, &answers, &names)))
}

/// What each call over an accepted text is answered with.
pub fn answered(text: &[u8], calls: &[String]) -> Result<Vec<String>, Trouble> {
    let mut input = framed(text);
    input.extend(calls.join("\n").bytes());
    if input.len() > INPUT_BYTES {
        return Err(Trouble::new("the script is longer than can be played"));
    }
    let told = visible(&told("replay", &input)?);
    let answers: Vec<String> = told.lines().skip(1).map(String::from).collect();
    if answers.len() == calls.len() {
        Ok(answers)
    } else {
        let (some, all) = (answers.len(), calls.len());
        Err(Trouble::new(format!("{some} of {all} calls were answered")))
    }
}

/// The index of each variable that the script names, where there is one: the proved lookup tells it.
fn looked_up(text: &[u8], lines: &[Line]) -> Result<BTreeMap<String, String>, Trouble> {
    let mut names: Vec<&str> = lines.iter().filter_map(Line::named).collect();
    names.sort();
    names.dedup();
    let calls: Vec<String> = names.iter().map(|name| format!("lookup {name}")).collect();
    let answers = answered(text, &calls)?;
    let found = names.iter().zip(&answers).filter_map(|(name, answer)| {
        let index = answer.strip_prefix("variable ")?;
        Some((name.to_string(), index.to_string()))
    });
    Ok(found.collect())
}

/// Scripts in the framed form, each behind its text. What has no frame would be passed over, and is told instead.
fn as_it_is(files: &[OsString]) -> Result<Report, Trouble> {
    let input = Source::whole(only(files, "replay --framed INPUT")?, INPUT_BYTES)?;
    if !begins_with_a_frame(&input.text) {
        return Err(Trouble::new(format!(
            "{}:1: no text in a frame stands here: a line `text N`, N bytes, and a newline",
            input.name
        )));
    }
    Ok(Report::good(visible(&told("replay", &input.text)?)))
}

fn begins_with_a_frame(input: &[u8]) -> bool {
    let mut parts = input.splitn(2, |&b| b == b'\n');
    let head = String::from_utf8_lossy(parts.next().unwrap_or_default()).into_owned();
    let rest = parts.next().unwrap_or_default();
    let fields: Vec<&str> = calls::fields(&head).collect();
    let ["text", length] = fields[..] else {
        return false;
    };
    let Some(length) = calls::natural(length).and_then(|n| usize::try_from(n).ok()) else {
        return false;
    };
    rest.len() == length || rest.get(length) == Some(&b'\n')
}

#[cfg(test)]
mod tests {
    use super::begins_with_a_frame;

    #[test]
    fn frames_are_known() {
        for input in ["text 2\nab\nopen 0", " text 0x02\nab", "text 0\n", "text 0"] {
            assert!(begins_with_a_frame(input.as_bytes()), "{input:?}");
        }
        for input in [
            "",
            "open 0\n",
            "text\n",
            "text 4\nab\n",
            "text 1\nab\n",
            "text 1 1\na",
        ] {
            assert!(!begins_with_a_frame(input.as_bytes()), "{input:?}");
        }
    }
}
