//! Texts in pieces: however a text is cut, its verdict and its tables are those of the whole.

use std::collections::BTreeMap;

use second::generate::{pieces, Random};
use second::pieces::script::{Call, Session};
use second::{
    load, load_into, stored, Loaded, Pieces, Taken, PARAMETER_WORDS, REGISTER_WORDS, TEXT_BYTES,
    VARIABLE_WORDS,
};

type Tables = [Vec<u32>; 3];

fn tables_of(word: u32) -> Tables {
    [PARAMETER_WORDS, REGISTER_WORDS, VARIABLE_WORDS].map(|size| vec![word; size])
}

/// The verdict and the tables of a text in two pieces, in a store that holds another text's bytes.
fn in_two(text: &[u8], cut: usize, store: &mut [u8], [p, r, v]: &mut Tables) -> Loaded {
    let mut taking = Pieces::default();
    let (one, other) = text.split_at(cut);
    for (piece, come) in [(one, one.len()), (other, text.len())] {
        let answer = taking.piece(store, piece);
        assert_eq!(answer == Taken::More, come <= TEXT_BYTES);
    }
    taking.end(store, p, r, v)
}

#[test]
fn every_stored_text_cut_at_every_byte() {
    let mut store = vec![b'x'; TEXT_BYTES];
    let mut tables = tables_of(7);
    for case in stored::texts() {
        let before = tables.clone();
        let mut whole = tables.clone();
        let [p, r, v] = &mut whole;
        let loaded = load_into(&case.text, p, r, v);
        for cut in 0..=case.text.len() {
            tables.clone_from(&before);
            let got = in_two(&case.text, cut, &mut store, &mut tables);
            assert_eq!(got, loaded, "{}, cut at {cut}", case.name);
            assert!(tables == whole, "{}, cut at {cut}", case.name);
        }
    }
}

/// What document 02 says of the calls, with the pieces joined in a list of any length.
#[derive(Default)]
struct Model {
    come: Vec<u8>,
    short: bool,
}

impl Model {
    fn answer(&mut self, call: &Call) -> String {
        match call {
            Call::LendShort | Call::LendAll => {
                self.short = *call == Call::LendShort;
                "lent".to_string()
            }
            _ if self.short => "refused 1 0".to_string(),
            Call::Piece(piece) => {
                self.come.extend(piece);
                match self.come.len() > TEXT_BYTES {
                    true => "refused 2 0".to_string(),
                    false => "more".to_string(),
                }
            }
            Call::End => load(&std::mem::take(&mut self.come)).to_string(),
        }
    }
}

/// What a call is an example of: its answer, and what it was answered to.
fn kind(call: &Call, answer: &str, over: bool) -> String {
    let asked = match call {
        Call::Piece(piece) if piece.is_empty() => "an empty piece",
        Call::Piece(_) => "a piece",
        _ => "end",
    };
    match (answer, over) {
        ("refused 2 0", false) => "the piece that passes the limit".to_string(),
        ("more" | "refused 1 0" | "refused 2 0", _) => format!("{asked}: {answer}"),
        _ => answer.split(' ').take(2).collect::<Vec<_>>().join(" "),
    }
}

/// Every line is answered as document 02 says, one station through; and each kind of call comes once in a hundred
/// texts, each verdict too.
#[test]
fn generated_pieces() {
    let mut random = Random::new(12);
    let mut session = Session::default();
    let mut model = Model::default();
    let mut seen: BTreeMap<String, usize> = BTreeMap::new();
    let texts = 3000;
    for _ in 0..texts {
        let mut kinds = Vec::new();
        for call in pieces(&mut random) {
            let over = model.come.len() > TEXT_BYTES;
            let answer = model.answer(&call);
            assert_eq!(session.perform(&call).to_string(), answer);
            if !matches!(call, Call::LendShort | Call::LendAll) {
                kinds.push(kind(&call, &answer, over));
            }
        }
        kinds.sort();
        kinds.dedup();
        for kind in kinds {
            *seen.entry(kind).or_insert(0) += 1;
        }
    }
    let accepted: usize = seen
        .iter()
        .filter(|(kind, _)| kind.starts_with("accepted"))
        .map(|(_, count)| count)
        .sum();
    assert!(100 * accepted >= texts, "{accepted} are accepted");
    let calls = [
        "a piece: more",
        "a piece: refused 1 0",
        "a piece: refused 2 0",
        "an empty piece: more",
        "an empty piece: refused 1 0",
        "an empty piece: refused 2 0",
        "the piece that passes the limit",
        "end: refused 1 0",
        "end: refused 2 0",
    ];
    let verdicts = (3..=16).map(|number| format!("refused {number}"));
    for kind in calls.into_iter().map(str::to_string).chain(verdicts) {
        let count = seen.get(&kind).copied().unwrap_or(0);
        assert!(100 * count >= texts, "{kind}: {seen:#?}");
    }
}
