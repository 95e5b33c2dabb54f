//! What is asked for.

use std::ffi::{OsStr, OsString};

use crate::help::{COMMANDS, HELP};
use crate::report::{Report, Trouble};
use crate::slip::meant;
use crate::{check, explain, map, replay, tokens};

/// The options and the files behind a command.
struct Given {
    option: Option<String>,
    files: Vec<OsString>,
}

pub fn follow(arguments: &[OsString]) -> Result<Report, Trouble> {
    let Some((command, behind)) = arguments.split_first() else {
        return Err(Trouble::new("no command; desfanuk --help lists them"));
    };
    let command = command.to_string_lossy();
    if is_help(&command) || behind.iter().any(|argument| argument == "--help") {
        return Ok(Report::good(HELP.to_string()));
    }
    if !COMMANDS.contains(&command.as_ref()) {
        return Err(Trouble::new(format!(
            "no command `{command}`{}\ndesfanuk --help lists the commands",
            meant(&command, COMMANDS)
        )));
    }
    let Given { option, files } = given(&command, behind)?;
    match command.as_ref() {
        "check" => check::check(&files, option.is_some()),
        "explain" => explain::explain(&files),
        "map" => map::map(&files, option.as_deref()),
        "replay" => replay::replay(&files, option.is_some()),
        _ => tokens::tokens(&files),
    }
}

fn is_help(word: &str) -> bool {
    ["--help", "-h", "help"].contains(&word)
}

/// The options that a command has; it takes one of them at most.
fn options(command: &str) -> Vec<&'static str> {
    match command {
        "check" => vec!["--json"],
        "map" => map::FORMS.iter().map(|(option, _)| *option).collect(),
        "replay" => vec!["--framed"],
        _ => vec![],
    }
}

fn given(command: &str, behind: &[OsString]) -> Result<Given, Trouble> {
    let known = options(command);
    let mut given = Given {
        option: None,
        files: Vec::new(),
    };
    let mut arguments = behind.iter();
    while let Some(argument) = arguments.next() {
        if argument == "--" {
            given.files.extend(arguments.cloned());
            break;
        }
        match option(argument) {
            None => given.files.push(argument.clone()),
            Some(word) if known.contains(&word.as_str()) && given.option.is_none() => {
                given.option = Some(word)
            }
            Some(word) => {
                return Err(Trouble::new(format!(
                    "{command}: `{word}` is no option here{}",
                    meant(&word, known)
                )))
            }
        }
    }
    Ok(given)
}

fn option(argument: &OsStr) -> Option<String> {
    let word = argument.to_string_lossy();
    (word.starts_with('-') && word != "-").then(|| word.into_owned())
}
