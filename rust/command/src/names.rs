//! The names that an accepted text declares, in its order: its tokens tell them.

use crate::report::Trouble;
use crate::source::visible;
use crate::tokens::{self, Token};

pub struct Names {
    pub device: String,
    pub parameters: Vec<String>,
    pub registers: Vec<String>,
    pub variables: Vec<String>,
}

impl Names {
    pub fn ask(text: &[u8]) -> Result<Names, Trouble> {
        let (tokens, _) = tokens::ask(text)?;
        let is = |token: &Token, kind: &str| token.kind == kind;
        let bytes = |token: &Token| visible(&text[token.place..token.end]);
        let declared_by = |word: &str| {
            let pairs = tokens.windows(2);
            let declarations = pairs.filter(|pair| is(&pair[0], "word") && bytes(&pair[0]) == word);
            declarations.map(|pair| bytes(&pair[1])).collect()
        };
        let registers: Vec<String> = declared_by("register");
        // No other names stand before the first register than the device's and the parameters'.
        let mut head = tokens
            .iter()
            .take_while(|token| !(is(token, "word") && bytes(token) == "register"))
            .filter(|token| is(token, "name"))
            .map(bytes);
        Ok(Names {
            device: head.next().unwrap_or_default(),
            parameters: head.collect(),
            registers,
            variables: declared_by("variable"),
        })
    }
}

/// A name by its index; the index where there is none.
pub fn called(names: &[String], index: &str) -> String {
    let name = index.parse().ok().and_then(|n: usize| names.get(n));
    name.cloned().unwrap_or_else(|| index.to_string())
}
