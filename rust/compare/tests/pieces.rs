//! Texts in pieces, in both implementations: the answer to each call, and the store, the number
//! taken and every word of the tables after it. The program `arrivals` is run on generated scripts;
//! `rt run` in crates/arrivals builds it.

use compare::programs::written;
use compare::proved;
use compare::seen::Seen;
use desfanuk::raw::{self, STORE_BYTES};
use second::generate::{pieces, Random};
use second::pieces::script::{self, Call};
use second::{
    frame, load_into, stored, Loaded, Pieces, Taken, PARAMETER_WORDS, REGISTER_WORDS, TEXT_BYTES,
    VARIABLE_WORDS,
};

type Tables = [Vec<u32>; 3];

const SIZES: [usize; 3] = [PARAMETER_WORDS, REGISTER_WORDS, VARIABLE_WORDS];

const REFUSED_1: Loaded = Loaded::Refused {
    number: 1,
    place: 0,
};

const REFUSED_2: Loaded = Loaded::Refused {
    number: 2,
    place: 0,
};

/// What a caller of the archive keeps and lends: all of it longer than it need be.
struct Lent {
    store: Vec<u8>,
    taken: [u64; 2],
    tables: Tables,
}

impl Lent {
    fn new() -> Lent {
        Lent {
            store: vec![0xA5; STORE_BYTES + 3],
            taken: [0, 9],
            tables: SIZES.map(|words| vec![7; words + 2]),
        }
    }

    /// Takes a piece into so many bytes of the store.
    fn take(&mut self, bytes: usize, piece: &[u8]) -> Taken {
        let [parameters, registers, variables] = &self.tables;
        let tables = raw::Tables {
            parameters,
            registers,
            variables,
        };
        proved::take_piece(tables, &mut self.store[..bytes], &mut self.taken, piece)
    }

    fn end(&mut self, bytes: usize) -> Loaded {
        let [parameters, registers, variables] = &mut self.tables;
        let store = &self.store[..bytes];
        proved::end_pieces(store, &mut self.taken, parameters, registers, variables)
    }
}

/// Notes an answer by its kind, a refusal by its number.
fn note(loaded: Loaded, seen: &mut Seen) {
    match loaded {
        Loaded::Accepted { .. } => seen.note("accepted"),
        Loaded::Refused { number, .. } => seen.note(format!("refused {number}")),
    }
}

/// Every stored text, cut at every byte: what is answered and left is what the second
/// implementation makes of the whole text.
#[test]
fn stored_texts_cut_at_every_byte() {
    let mut lent = Lent::new();
    let mut seen = Seen::default();
    for case in stored::texts() {
        let mut whole = Lent::new().tables;
        let [parameters, registers, variables] = &mut whole;
        let due = load_into(&case.text, parameters, registers, variables);
        let bytes = lent.store.len();
        for cut in 0..=case.text.len() {
            lent.tables.iter_mut().for_each(|table| table.fill(7));
            let (one, other) = case.text.split_at(cut);
            for (piece, come) in [(one, cut), (other, case.text.len())] {
                let reply = match come > TEXT_BYTES {
                    true => Taken::Verdict(REFUSED_2),
                    false => Taken::More,
                };
                assert_eq!(
                    lent.take(bytes, piece),
                    reply,
                    "{}, cut at {cut}",
                    case.name
                );
            }
            assert_eq!(lent.end(bytes), due, "{}, cut at {cut}", case.name);
            assert!(lent.tables == whole, "{}, cut at {cut}", case.name);
            assert_eq!(lent.taken, [0, 9]);
        }
        note(due, &mut seen);
    }
    let numbers: Vec<String> = (2..=16).map(|number| format!("refused {number}")).collect();
    let kinds = numbers.iter().map(String::as_str).chain(["accepted"]);
    seen.require("stored texts cut at every byte", kinds, 1);
}

/// Both at once, call by call, text after text.
#[test]
fn generated_pieces() {
    let mut random = Random::new(1202);
    let mut seen = Seen::default();
    let mut lent = Lent::new();
    let Lent {
        mut store,
        mut tables,
        ..
    } = Lent::new();
    let mut taking = Pieces::default();
    let mut bytes = store.len();
    for call in (0..2000).flat_map(|_| pieces(&mut random)) {
        match call {
            Call::LendShort => bytes = STORE_BYTES - 1,
            Call::LendAll => bytes = store.len(),
            Call::Piece(piece) => {
                let reply = lent.take(bytes, &piece);
                assert_eq!(reply, taking.piece(&mut store[..bytes], &piece));
                match reply {
                    Taken::More => seen.note("more"),
                    Taken::Verdict(refused) => note(refused, &mut seen),
                }
            }
            Call::End => {
                let [parameters, registers, variables] = &mut tables;
                let due = taking.end(&store[..bytes], parameters, registers, variables);
                assert_eq!(lent.end(bytes), due);
                note(due, &mut seen);
            }
        }
        let taken = taking.held().map_or(TEXT_BYTES + 1, |held| held) as u64;
        assert_eq!(lent.taken, [taken, 9]);
        assert!(lent.store == store && lent.tables == tables);
    }
    let kinds = ["more", "accepted", "refused 1", "refused 2", "refused 16"];
    seen.require("generated pieces", kinds, 20);
}

/// 1 comes first at every call and changes nothing, be it the store or a table that lacks an
/// element, and whatever number is lent.
#[test]
fn what_is_lent_short() {
    for short in 0..4 {
        for taken in [0, 5, 8192, 8193, u64::MAX] {
            let mut lent = Lent::new();
            lent.taken[0] = taken;
            match short {
                3 => lent.store.truncate(STORE_BYTES - 1),
                table => lent.tables[table].truncate(SIZES[table] - 1),
            }
            let (store, tables) = (lent.store.clone(), lent.tables.clone());
            let bytes = store.len();
            for piece in [&b""[..], b"abc", &[b' '; TEXT_BYTES + 1]] {
                assert_eq!(lent.take(bytes, piece), Taken::Verdict(REFUSED_1));
            }
            assert_eq!(lent.end(bytes), REFUSED_1);
            assert!(lent.store == store && lent.tables == tables);
            assert_eq!(lent.taken, [taken, 9]);
        }
    }
}

/// Any number that is lent has a meaning, and so has none.
#[test]
fn any_number_taken() {
    let mut lent = Lent::new();
    let bytes = lent.store.len();
    for number in [8193, 1 << 40, u64::MAX - 1, u64::MAX] {
        for piece in [&b""[..], b"abc"] {
            lent.taken[0] = number;
            assert_eq!(lent.take(bytes, piece), Taken::Verdict(REFUSED_2));
            assert_eq!(lent.taken, [8193, 9]);
        }
        lent.taken[0] = number;
        assert_eq!(lent.end(bytes), REFUSED_2);
        assert_eq!(lent.taken, [0, 9]);
    }
    lent.taken[0] = 8190;
    assert_eq!(lent.take(bytes, b"ab"), Taken::More);
    assert_eq!(lent.taken, [8192, 9]);
    assert_eq!(lent.store[8190..], *b"ab\xA5\xA5\xA5");

    let Lent { store, tables, .. } = &mut lent;
    let [parameters, registers, variables] = tables;
    let words = raw::Tables {
        parameters,
        registers,
        variables,
    };
    let reply = proved::take_piece(words, store, &mut [], b"");
    assert_eq!(reply, Taken::Verdict(REFUSED_2));
    let ended = proved::end_pieces(store, &mut [], parameters, registers, variables);
    assert_eq!(ended, REFUSED_2);
    assert!(tables.iter().flatten().all(|word| *word == 7));
}

/// What the program `arrivals` writes.
fn played(input: &[u8]) -> String {
    written("arrivals", input)
}

/// Scripts of generated pieces, each by itself and all in frames, as the second implementation
/// plays them.
#[test]
fn generated_scripts() {
    let mut random = Random::new(1203);
    let mut framed = Vec::new();
    let mut all = String::new();
    for number in 0..200 {
        let mut lines = b"; a script\n\nlend\n".to_vec();
        for call in pieces(&mut random) {
            call.write(&mut lines);
        }
        let due: String = script::run(&lines)
            .iter()
            .map(|l| format!("{l}\n"))
            .collect();
        if number < 20 {
            assert_eq!(played(&lines), due);
        }
        if framed.len() + lines.len() < 1_000_000 {
            frame::write(&lines, &mut framed);
            all += &due;
        }
    }
    assert_eq!(played(&framed), all);
}
