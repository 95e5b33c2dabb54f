//! The soak: generated texts, whole and in pieces, damaged tables and lives of stations, played in both
//! implementations, round after round; and an input that shows a difference, made small.

use std::fmt;
use std::panic::{self, AssertUnwindSafe};

use desfanuk::raw::STORE_BYTES;
use second::generate::{self, calibrated_run, damaged_tables, run, valid, Random, TableSet};
use second::pieces::script;
use second::replay::Call;
use second::{
    load_into, sound, Pieces, Taken, PARAMETER_WORDS, REGISTER_WORDS, TEXT_BYTES, VARIABLE_WORDS,
};

use crate::archive::{each, Archive};
use crate::both::Both;

/// An input that the two implementations must agree on.
#[derive(Clone)]
pub enum Input {
    Text(Vec<u8>),
    /// A text in pieces, and its end.
    Pieces(Vec<script::Call>),
    Tables(TableSet),
    /// A text, and calls of a station over it.
    Life(Vec<u8>, Vec<Call>),
}

/// The kinds of inputs, and how many of each are played in a round.
pub const KINDS: [(&str, usize); 5] = [
    ("texts", 20),
    ("texts in pieces", 1),
    ("damaged tables", 4),
    ("lives", 1),
    ("lives with readings in units", 1),
];

/// What differs, and an input that shows it, from which nothing can be left out.
pub struct Difference {
    pub kind: &'static str,
    pub told: String,
    pub small: Input,
}

impl fmt::Display for Difference {
    fn fmt(&self, f: &mut fmt::Formatter<'_>) -> fmt::Result {
        let Difference { kind, told, small } = self;
        writeln!(f, "differs, in {kind}: {told}")?;
        write!(f, "made small:\n{small}")
    }
}

/// A soak of an archive: how many of each kind were played so far.
pub struct Soak {
    archive: Archive,
    random: Random,
    pub played: [u64; KINDS.len()],
}

impl Soak {
    pub fn new(archive: Archive, seed: u64) -> Soak {
        Soak {
            archive,
            random: Random::new(seed),
            played: [0; KINDS.len()],
        }
    }

    /// Plays a round, up to a difference.
    pub fn round(&mut self) -> Option<Difference> {
        let kinds = KINDS.into_iter().enumerate();
        let inputs = kinds.flat_map(|(index, (kind, count))| vec![(index, kind); count]);
        inputs.into_iter().find_map(|(index, kind)| {
            let input = Input::some(&mut self.random, index);
            self.played[index] += 1;
            input.difference(&self.archive)?;
            let small = input.made_small(&self.archive);
            let told = small.difference(&self.archive)?;
            Some(Difference { kind, told, small })
        })
    }
}

impl Input {
    /// Some input of a kind, by its place among the kinds.
    fn some(random: &mut Random, kind: usize) -> Input {
        match kind {
            0 => Input::Text(generate::text(random)),
            1 => Input::Pieces(generate::pieces(random)),
            2 => Input::Tables(damaged_tables(random)),
            _ => {
                let text = valid(random);
                let run = [run, calibrated_run][kind - 3];
                let calls = run(random, &text, 30);
                Input::Life(text, calls)
            }
        }
    }

    /// What differs, if something does. An answer that is none, or that left what it must not, is a failed
    /// assertion of those that play the input.
    pub fn difference(&self, archive: &Archive) -> Option<String> {
        let played = panic::catch_unwind(AssertUnwindSafe(|| match self {
            Input::Text(text) => text_differs(archive, text),
            Input::Pieces(calls) => pieces_differ(archive, calls),
            Input::Tables(set) => tables_differ(archive, set),
            Input::Life(text, calls) => life_differs(archive, text, calls),
        }));
        played.unwrap_or_else(|cause| {
            let told = cause.downcast_ref::<String>().cloned();
            Some(told.unwrap_or_else(|| "an answer, or what it left".to_string()))
        })
    }

    /// This input without what the difference does not need.
    pub fn made_small(&self, archive: &Archive) -> Input {
        let differs = |input: Input| input.difference(archive).is_some();
        match self {
            Input::Text(text) => Input::Text(least_text(text, |text| differs(Input::Text(text)))),
            Input::Pieces(calls) => {
                let with = |calls: &[script::Call]| Input::Pieces(calls.to_vec());
                with(&least(calls, 1, |calls| differs(with(calls))))
            }
            Input::Tables(set) => {
                let with = |words: &[Word]| Input::Tables(with_words(set, words));
                with(&least(&words_of(set), 1, |words| differs(with(words))))
            }
            Input::Life(text, calls) => {
                let with = |calls: &[Call]| Input::Life(text.clone(), calls.to_vec());
                let calls = least(calls, 1, |calls| differs(with(calls)));
                let with = |text| Input::Life(text, calls.clone());
                with(least_text(text, |text| differs(with(text))))
            }
        }
    }
}

impl fmt::Display for Input {
    fn fmt(&self, f: &mut fmt::Formatter<'_>) -> fmt::Result {
        match self {
            Input::Text(text) => writeln!(f, "{}", text.escape_ascii()),
            Input::Pieces(calls) => calls.iter().try_for_each(|call| {
                let mut line = Vec::new();
                call.write(&mut line);
                writeln!(f, "{}", line.escape_ascii())
            }),
            Input::Tables(set) => {
                writeln!(f, "words that are not 0, by table and place:")?;
                let mut words = words_of(set).into_iter();
                words.try_for_each(|(table, place, word)| writeln!(f, "{table} {place} {word}"))
            }
            Input::Life(text, calls) => {
                writeln!(f, "{}", text.escape_ascii())?;
                calls.iter().try_for_each(|call| writeln!(f, "{call}"))
            }
        }
    }
}

/// Tables that hold sevens, a word longer than they need be.
fn sevens() -> TableSet {
    TableSet {
        parameters: vec![7; PARAMETER_WORDS + 1],
        registers: vec![7; REGISTER_WORDS + 1],
        variables: vec![7; VARIABLE_WORDS + 1],
    }
}

/// Loads a text in both: the answer, and every word of the three tables.
fn text_differs(archive: &Archive, text: &[u8]) -> Option<String> {
    let (mut first, mut second) = (sevens(), sevens());
    let [parameters, registers, variables] = each(&mut second);
    let want = load_into(text, parameters, registers, variables);
    let got = (archive.load)(text, &mut first);
    if got != want {
        return Some(format!("proved {got:?}, second {want:?}"));
    }
    (first != second).then(|| "the words of the tables".to_string())
}

/// A text in pieces, in both: each answer, and the store, the number taken and the tables behind it.
fn pieces_differ(archive: &Archive, calls: &[script::Call]) -> Option<String> {
    let (mut first, mut second) = (sevens(), sevens());
    let mut stores = [vec![0xA5; STORE_BYTES + 1], vec![0xA5; STORE_BYTES + 1]];
    let (mut taken, mut pieces) = ([0, 9], Pieces::default());
    let mut lent = STORE_BYTES + 1;
    for call in calls {
        let [one, other] = stores.each_mut().map(|store| &mut store[..lent]);
        let (got, want) = match call {
            script::Call::LendShort => {
                lent = STORE_BYTES - 1;
                continue;
            }
            script::Call::LendAll => {
                lent = STORE_BYTES + 1;
                continue;
            }
            script::Call::Piece(piece) => (
                (archive.take_piece)(&first, one, &mut taken, piece),
                pieces.piece(other, piece),
            ),
            script::Call::End => {
                let [parameters, registers, variables] = each(&mut second);
                let want = pieces.end(other, parameters, registers, variables);
                let got = (archive.end_pieces)(one, &mut taken, &mut first);
                (Taken::Verdict(got), Taken::Verdict(want))
            }
        };
        if got != want {
            return Some(format!("proved {got}, second {want}"));
        }
        let held = pieces.held().unwrap_or(TEXT_BYTES + 1) as u64;
        if taken != [held, 9] || first != second || stores[0] != stores[1] {
            return Some("what a call left".to_string());
        }
    }
    None
}

/// Refusal 20's test of tables.
fn tables_differ(archive: &Archive, set: &TableSet) -> Option<String> {
    let got = (archive.sound)(set);
    let want = sound(&set.parameters, &set.registers, &set.variables);
    (got != want).then(|| format!("sound: proved {got}, second {want}"))
}

/// Calls of a station over an accepted text, which both make and hold to each other after each.
fn life_differs(archive: &Archive, text: &[u8], calls: &[Call]) -> Option<String> {
    let second::Verdict::Accepted { description } = second::load(text) else {
        return None;
    };
    let (parameters, registers, variables) = second::tables(&description);
    let set = TableSet {
        parameters,
        registers,
        variables,
    };
    let (record, marks) = (description.registers.len(), description.variables.len());
    let mut both = Both::new(&mut Random::new(1), set, record, marks).over(*archive);
    for call in calls {
        both.perform(call);
    }
    None
}

/// A word of tables that is not 0: its table, its place, and what it is.
type Word = (usize, usize, u32);

fn words_of(set: &TableSet) -> Vec<Word> {
    let tables = [&set.parameters, &set.registers, &set.variables];
    let placed = |(table, words): (usize, &Vec<u32>)| {
        let words = words.clone().into_iter().enumerate();
        words.map(move |(place, word)| (table, place, word))
    };
    let all = tables.into_iter().enumerate().flat_map(placed);
    all.filter(|(_, _, word)| *word != 0).collect()
}

/// Tables of the same lengths with these words alone.
fn with_words(set: &TableSet, words: &[Word]) -> TableSet {
    let mut less = set.clone();
    let mut tables = each(&mut less);
    tables.iter_mut().for_each(|table| table.fill(0));
    for (table, place, word) in words {
        tables[*table][*place] = *word;
    }
    less
}

/// A list that is still such a list, and is not once an element is left out. Runs of elements are left out
/// first; those that are no longer than `longest` are tried at every place.
fn least<T: Clone>(list: &[T], longest: usize, such: impl Fn(&[T]) -> bool) -> Vec<T> {
    let mut list = list.to_vec();
    loop {
        let before = list.len();
        let mut run = list.len();
        while run > 0 {
            let step = if run > longest { run } else { 1 };
            let mut at = 0;
            while at < list.len() {
                let mut without = list.clone();
                without.drain(at..(at + run).min(list.len()));
                if such(&without) {
                    list = without;
                } else {
                    at += step;
                }
            }
            run = if run > longest {
                longest.max(run / 2)
            } else {
                run - 1
            };
        }
        if list.len() == before {
            return list;
        }
    }
}

/// The least of a text: whole declarations are left out, then words and signs, then bytes.
fn least_text(text: &[u8], such: impl Fn(Vec<u8>) -> bool) -> Vec<u8> {
    let joined = |parts: &[&[u8]]| such(parts.concat());
    let declarations: Vec<&[u8]> = text.split_inclusive(|byte| *byte == b';').collect();
    let text = least(&declarations, 2, joined).concat();
    let in_one_word = |one: &u8, next: &u8| [one, next].iter().all(|b| b.is_ascii_alphanumeric());
    let words: Vec<&[u8]> = text.chunk_by(in_one_word).collect();
    let text = least(&words, 8, joined).concat();
    least(&text, 1, |bytes| such(bytes.to_vec()))
}

#[cfg(test)]
mod tests {
    use super::*;

    #[test]
    fn a_list_is_made_small() {
        let list: Vec<u32> = (0..100).collect();
        let needed = |list: &[u32]| list.contains(&17) && list.contains(&80);
        assert_eq!(least(&list, 1, needed), [17, 80]);
        // three that can only go together, and stand at no multiple of three
        let whole = [0, 1, 2, 3, 4, 5, 6];
        let such = |list: &[u32]| list == whole || list == [0, 1, 5, 6];
        assert_eq!(least(&whole, 4, such), [0, 1, 5, 6]);
        assert_eq!(least(&whole, 1, such), whole);
    }

    #[test]
    fn a_text_is_made_small() {
        let text = b"one; two a, bc; three;";
        let such = |text: Vec<u8>| text.windows(2).any(|two| two == b"bc");
        assert_eq!(least_text(text, such), b"bc");
    }

    #[test]
    fn words_are_put_back_where_they_were() {
        let set = damaged_tables(&mut Random::new(7));
        assert_eq!(with_words(&set, &words_of(&set)), set);
    }
}
