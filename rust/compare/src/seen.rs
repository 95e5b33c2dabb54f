//! What a test saw: how often each answer came. A test that never saw some refusal shows nothing
//! of it, so it fails.

use std::collections::BTreeMap;

use second::Answer;

#[derive(Default)]
pub struct Seen(BTreeMap<String, usize>);

impl Seen {
    pub fn note(&mut self, kind: impl Into<String>) {
        *self.0.entry(kind.into()).or_insert(0) += 1;
    }

    /// An answer by its kind, a refusal by its number.
    pub fn answer(&mut self, answer: Answer) {
        match answer {
            Answer::Refused(number) => self.note(format!("refused {number:02}")),
            Answer::Contradicted { .. } => self.note("refused 52"),
            Answer::NotFinite => self.note("refused 54"),
            Answer::Measured { .. } => self.note("measured"),
            Answer::Opened => self.note("opened"),
            Answer::Offer(_) => self.note("offer"),
            Answer::Done { .. } => self.note("done"),
            Answer::Abandoned => self.note("abandoned"),
        }
    }

    pub fn count(&self, kind: &str) -> usize {
        self.0.get(kind).copied().unwrap_or(0)
    }

    /// Prints all counts; fails where one of these kinds came less often than `least` times.
    pub fn require<'a>(&self, title: &str, kinds: impl IntoIterator<Item = &'a str>, least: usize) {
        println!("{title}:");
        for (kind, count) in &self.0 {
            println!("  {kind:<12} {count:>9}");
        }
        for kind in kinds {
            let count = self.count(kind);
            assert!(
                count >= least,
                "{title}: {kind} came {count} times, not {least}"
            );
        }
    }
}
