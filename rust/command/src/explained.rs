//! What the proved program `explain` tells of a text: its verdict, and then why, or a map.

use crate::paint::Paint;
use crate::programs;
use crate::report::Trouble;
use crate::source::{visible, Source};
use crate::verdict::{refused_line, Verdict};

pub struct Explained {
    pub verdict: Verdict,
    /// What stands behind the verdict, and behind the place, which the first line of a command tells.
    pub rest: String,
}

impl Explained {
    pub fn ask(text: &[u8]) -> Result<Explained, Trouble> {
        let told = visible(&programs::told("explain", text)?);
        let (first, rest) = told.split_once('\n').unwrap_or((&told, ""));
        let rest = match rest.split_once('\n') {
            Some((place, behind)) if place.starts_with("line ") => behind,
            _ => rest,
        };
        Ok(Explained {
            verdict: Verdict::of(first)?,
            rest: rest.trim_start_matches('\n').to_string(),
        })
    }

    /// What is told of a refusal up to a blank line, by sentences: a line that begins with a blank goes on with the one
    /// before.
    fn sentences(&self) -> Vec<String> {
        let mut all: Vec<String> = Vec::new();
        for line in self.rest.lines().take_while(|line| !line.is_empty()) {
            match all.last_mut() {
                Some(last) if line.starts_with(' ') => *last += &format!(" {}", line.trim()),
                _ => all.push(line.to_string()),
            }
        }
        all
    }

    /// The rule in plain words, which is told first.
    pub fn rule(&self) -> String {
        let line = self.sentences().into_iter().next().unwrap_or_default();
        match line.split_once(": ") {
            Some((_, words)) => words.to_string(),
            None => line,
        }
    }

    /// What breaks the rule.
    pub fn causes(&self) -> Vec<String> {
        self.sentences().into_iter().skip(1).collect()
    }

    /// The one line about a refused text: what breaks the rule, or the rule itself where that says it all.
    pub fn refused_in_a_line(&self, paint: Paint, source: &Source) -> Option<String> {
        let causes = self.causes();
        let words = if causes.is_empty() {
            self.rule()
        } else {
            causes.join("; ")
        };
        self.refused(paint, source, &words)
    }

    /// All that is told about a refused text: the rule on the first line, and then what breaks it.
    pub fn refused_at_length(&self, paint: Paint, source: &Source) -> Option<String> {
        let first = self.refused(paint, source, &self.rule())?;
        let is_rule = |(at, line): &(usize, &str)| *at == 0 || line.starts_with(' ');
        let rule = self.rest.lines().enumerate().take_while(is_rule).count();
        let behind = self.rest.split_inclusive('\n').skip(rule);
        Some(first + &behind.collect::<String>())
    }

    fn refused(&self, paint: Paint, source: &Source, words: &str) -> Option<String> {
        let Verdict::Refused { number, place } = self.verdict else {
            return None;
        };
        let Source { name, text } = source;
        Some(refused_line(paint, name, text, number, place, words))
    }
}
