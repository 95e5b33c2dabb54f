//! A script as people write it: a call a line, `;` before a comment, lines ended by LF or CRLF.

use std::collections::BTreeMap;

use super::calls::{begun, fields, natural, Kind, CALLS};
use crate::source::visible;

/// A line: its call as it was written, and the comment behind it.
pub struct Line {
    pub number: usize,
    pub call: String,
    pub comment: String,
    meaning: Meaning,
}

/// What a line asks for.
enum Meaning {
    Nothing,
    /// The words of the framed form.
    Call(Vec<String>),
    /// Words of which the one at this place is a variable's name.
    Named(Vec<String>, usize),
    Fault(String),
}

pub fn read(script: &[u8]) -> Vec<Line> {
    let script = String::from_utf8_lossy(script).into_owned();
    let mut lines: Vec<&str> = script.split('\n').collect();
    if lines.last() == Some(&"") {
        lines.pop();
    }
    let numbered = lines.into_iter().enumerate();
    numbered.map(|(at, line)| Line::of(at + 1, line)).collect()
}

impl Line {
    fn of(number: usize, line: &str) -> Line {
        let line = line.strip_suffix('\r').unwrap_or(line);
        let (call, comment) = line.split_at(line.find(';').unwrap_or(line.len()));
        Line {
            number,
            call: visible(call.trim().as_bytes()),
            comment: visible(comment.as_bytes()),
            meaning: understood(call).unwrap_or_else(Meaning::Fault),
        }
    }

    /// The call in the framed form; none where there is no call.
    pub fn framed(&self) -> Option<String> {
        match &self.meaning {
            Meaning::Call(words) => Some(words.join(" ")),
            _ => None,
        }
    }

    pub fn fault(&self) -> Option<&str> {
        match &self.meaning {
            Meaning::Fault(fault) => Some(fault),
            _ => None,
        }
    }

    /// The variable that it names.
    pub fn named(&self) -> Option<&str> {
        match &self.meaning {
            Meaning::Named(words, at) => Some(&words[*at]),
            _ => None,
        }
    }

    /// Puts the variable's index in the place of its name.
    pub fn name(&mut self, indices: &BTreeMap<String, String>, missing: impl Fn(&str) -> String) {
        if let Meaning::Named(words, at) = &mut self.meaning {
            self.meaning = match indices.get(&words[*at]) {
                Some(index) => {
                    words[*at] = index.clone();
                    Meaning::Call(std::mem::take(words))
                }
                None => Meaning::Fault(missing(&words[*at])),
            };
        }
    }
}

/// What a call's words ask for, or what is wrong with them.
fn understood(call: &str) -> Result<Meaning, String> {
    let words: Vec<&str> = fields(call).collect();
    if words.is_empty() {
        return Ok(Meaning::Nothing);
    }
    let (at, behind) = begun(&words)?;
    let (verb, kinds, usage) = CALLS[at];
    let kinds = match verb {
        "open" => vec![Kind::Number; behind.len()],
        _ => kinds.to_vec(),
    };
    if behind.len() != kinds.len() {
        return Err(format!("it is written {usage}"));
    }
    let mut framed = vec![verb.to_string()];
    for (kind, word) in kinds.iter().zip(behind) {
        framed.push(kind.taken(word)?);
    }
    let variable = kinds.iter().position(|kind| *kind == Kind::Variable);
    Ok(match variable.map(|at| at + 1) {
        Some(at) if natural(&framed[at]).is_none() => Meaning::Named(framed, at),
        _ => Meaning::Call(framed),
    })
}

#[cfg(test)]
mod tests {
    use super::*;

    fn only(script: &str) -> Line {
        read(script.as_bytes()).remove(0)
    }

    #[test]
    fn calls_are_understood() {
        for (line, framed) in [
            ("open 0 0x21\r", "open 0 33"),
            ("  write\t3 -2 ; a comment", "write 3 -2"),
            (
                "calibrated 2 0.5 1024",
                "calibrated 2 3FE0000000000000 4090000000000000",
            ),
            ("hold write 1 0 7", "hold write 1 0 7"),
            ("lend record all", "lend record all"),
        ] {
            assert_eq!(only(line).framed().as_deref(), Some(framed), "{line}");
        }
        for line in ["", " ", "\r", "; only a comment", "\t;"] {
            assert!(only(&format!("{line}\n")).framed().is_none(), "{line:?}");
            assert!(only(&format!("{line}\n")).fault().is_none(), "{line:?}");
        }
    }

    #[test]
    fn what_is_no_call_is_told() {
        for (line, fault) in [
            (
                "confrim 0",
                "there is no call `confrim`: did you mean `confirm`?",
            ),
            ("jump", "there is no call `jump`"),
            ("confirm", "it is written confirm N"),
            ("confirm x", "`x` is no number of up to 32 bits"),
            ("write score", "it is written write V VALUE"),
            (
                "lend it 1",
                "it goes on otherwise: lend record K, or lend marks K",
            ),
            (
                "text 12",
                "a framed script begins like this: desfanuk replay --framed plays it",
            ),
        ] {
            assert_eq!(only(line).fault(), Some(fault), "{line}");
        }
    }

    #[test]
    fn names_become_indices() {
        let indices = BTreeMap::from([("score".to_string(), "4".to_string())]);
        let mut line = only("write score 1443 ; the mark");
        assert_eq!(line.named(), Some("score"));
        line.name(&indices, |_| unreachable!());
        assert_eq!(line.framed().as_deref(), Some("write 4 1443"));
        assert_eq!(
            (line.call.as_str(), line.comment.as_str()),
            ("write score 1443", "; the mark")
        );
        let mut line = only("read scroe");
        line.name(&indices, |name| format!("no {name}"));
        assert_eq!(line.fault(), Some("no scroe"));
    }
}
