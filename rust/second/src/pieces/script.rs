//! Scripts of pieces, and what each line answers.
//!
//! A line `piece N` stands before N bytes and a newline; the other lines are `end`, `lend short` and `lend all`.

use std::fmt;

use super::{Pieces, Taken};
use crate::frame;
use crate::load::TEXT_BYTES;
use crate::replay::fields;
use crate::{PARAMETER_WORDS, REGISTER_WORDS, VARIABLE_WORDS};

/// One line of a script, with the bytes behind it.
#[derive(Clone, Debug, PartialEq, Eq)]
pub enum Call {
    Piece(Vec<u8>),
    End,
    /// Lends a store that is a byte too short from now on.
    LendShort,
    /// Lends the whole store again.
    LendAll,
}

impl Call {
    /// Appends the call as a script has it.
    pub fn write(&self, to: &mut Vec<u8>) {
        match self {
            Call::Piece(bytes) => frame::write_headed("piece", bytes, to),
            Call::End => to.extend_from_slice(b"end\n"),
            Call::LendShort => to.extend_from_slice(b"lend short\n"),
            Call::LendAll => to.extend_from_slice(b"lend all\n"),
        }
    }
}

/// What a call answers, as a line.
#[derive(Clone, Copy, Debug, PartialEq, Eq)]
pub enum Answer {
    Taken(Taken),
    Lent,
}

impl fmt::Display for Answer {
    fn fmt(&self, f: &mut fmt::Formatter) -> fmt::Result {
        match self {
            Answer::Taken(taken) => write!(f, "{taken}"),
            Answer::Lent => write!(f, "lent"),
        }
    }
}

/// A store, tables, and what has come so far.
pub struct Session {
    pieces: Pieces,
    store: Vec<u8>,
    lent: usize,
    tables: [Vec<u32>; 3],
}

impl Default for Session {
    fn default() -> Session {
        Session {
            pieces: Pieces::default(),
            store: vec![0; TEXT_BYTES],
            lent: TEXT_BYTES,
            tables: [PARAMETER_WORDS, REGISTER_WORDS, VARIABLE_WORDS].map(|words| vec![0; words]),
        }
    }
}

impl Session {
    pub fn perform(&mut self, call: &Call) -> Answer {
        let store = &mut self.store[..self.lent];
        let [parameters, registers, variables] = &mut self.tables;
        match call {
            Call::Piece(piece) => Answer::Taken(self.pieces.piece(store, piece)),
            Call::End => {
                let loaded = self.pieces.end(store, parameters, registers, variables);
                Answer::Taken(Taken::Verdict(loaded))
            }
            Call::LendShort => {
                self.lent = TEXT_BYTES - 1;
                Answer::Lent
            }
            Call::LendAll => {
                self.lent = TEXT_BYTES;
                Answer::Lent
            }
        }
    }
}

/// Reads a line that has no bytes behind it.
fn parse(line: &[u8]) -> Option<Call> {
    match fields(line).collect::<Vec<_>>()[..] {
        [b"end"] => Some(Call::End),
        [b"lend", b"short"] => Some(Call::LendShort),
        [b"lend", b"all"] => Some(Call::LendAll),
        _ => None,
    }
}

/// Runs a script and gives the lines that it writes: one for each call, `unknown` for a line that is none. Blank lines
/// and comments are skipped.
pub fn run(script: &[u8]) -> Vec<String> {
    let mut session = Session::default();
    let mut written = Vec::new();
    let mut at = 0;
    while at < script.len() {
        if let Ok((piece, next)) = frame::read_headed("piece", script, at) {
            let call = Call::Piece(piece.to_vec());
            written.push(session.perform(&call).to_string());
            at = next;
            continue;
        }
        let line = script[at..].split(|b| *b == b'\n').next().unwrap_or(&[]);
        at += line.len() + 1;
        let skipped = fields(line).next().is_none_or(|word| word[0] == b';');
        if !skipped {
            written.push(match parse(line) {
                Some(call) => session.perform(&call).to_string(),
                None => "unknown".to_string(),
            });
        }
    }
    written
}

#[cfg(test)]
mod tests {
    use super::*;

    /// Every call is heard as what it is, whatever bytes a piece has.
    #[test]
    fn every_call_is_its_lines() {
        let calls = [
            Call::Piece(b"end\n".to_vec()),
            Call::LendShort,
            Call::Piece(b"piece 1".to_vec()),
            Call::End,
            Call::LendAll,
            Call::Piece(Vec::new()),
            Call::End,
        ];
        let mut script = Vec::new();
        calls.iter().for_each(|call| call.write(&mut script));
        let answers = [
            "more",
            "lent",
            "refused 1 0",
            "refused 1 0",
            "lent",
            "more",
            "refused 4 0",
        ];
        assert_eq!(run(&script), answers);
    }

    #[test]
    fn no_call() {
        for line in [
            "piece",
            "piece x",
            "piece -1",
            "piece 4\nend",
            "pieces 0",
            "end 0",
            "END",
            "lend",
            "lend shorter",
            "lend short 1",
            "text 0",
        ] {
            assert_eq!(run(line.as_bytes())[0], "unknown", "{line}");
        }
        assert!(run(b"\n; piece 0\n \t\n").is_empty());
    }
}
