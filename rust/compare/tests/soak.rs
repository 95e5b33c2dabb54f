//! The soak finds what it is for: a wrong call is put in the place of a proved one, and the soak stops
//! with an input that shows it, made small. Nothing differs where all calls are the proved ones.

use compare::archive::Archive;
use compare::proved::{self, Lent};
use compare::soak::{Difference, Input, Soak, KINDS};
use second::pieces::script;
use second::replay::Call;
use second::{Calibration, Loaded};

const PROVED: Archive = Archive::PROVED;

/// The first difference of a soak, which is one of this kind and is not there with the proved calls.
fn found(archive: Archive, kind: &str) -> Input {
    let mut soak = Soak::new(archive, 501);
    let found = (0..400).find_map(|_| soak.round());
    let Difference {
        kind: of, small, ..
    } = found.expect("a difference");
    assert_eq!(of, kind, "{small}");
    assert_eq!(small.difference(&PROVED), None, "{small}");
    small
}

#[test]
fn nothing_differs() {
    let mut soak = Soak::new(PROVED, 502);
    for _ in 0..100 {
        let difference = soak.round().map(|difference| difference.to_string());
        assert_eq!(difference, None);
    }
    assert_eq!(
        soak.played.to_vec(),
        KINDS.map(|(_, count)| 100 * count as u64)
    );
}

#[test]
fn a_loader_that_names_11_for_12() {
    let archive = Archive {
        load: |text, set| match (PROVED.load)(text, set) {
            Loaded::Refused { number: 12, place } => Loaded::Refused { number: 11, place },
            other => other,
        },
        ..PROVED
    };
    let small = found(archive, "texts");
    let Input::Text(text) = &small else {
        panic!("{small}");
    };
    assert!(text.len() < 100, "{small}");
    for left_out in 0..text.len() {
        let mut less = text.clone();
        less.remove(left_out);
        assert_eq!(Input::Text(less).difference(&archive), None, "{small}");
    }
}

#[test]
fn an_empty_piece_that_starts_afresh() {
    let archive = Archive {
        take_piece: |set, store, taken, piece| {
            if piece.is_empty() {
                taken[0] = 0;
            }
            (PROVED.take_piece)(set, store, taken, piece)
        },
        ..PROVED
    };
    let small = found(archive, "texts in pieces");
    let Input::Pieces(calls) = &small else {
        panic!("{small}");
    };
    let [script::Call::Piece(first), script::Call::Piece(empty)] = &calls[..] else {
        panic!("{small}");
    };
    assert!(!first.is_empty() && empty.is_empty(), "{small}");
}

#[test]
fn a_sound_test_that_reads_recorded_names() {
    let archive = Archive {
        sound: |set| (PROVED.sound)(set) && set.parameters[1] < 8192,
        ..PROVED
    };
    let small = found(archive, "damaged tables");
    let Input::Tables(set) = &small else {
        panic!("{small}");
    };
    assert!(set.parameters[1] >= 8192, "{small}");
    // what else is recorded as a name is left out
    assert_eq!((set.registers[1], set.variables[1]), (0, 0), "{small}");
}

/// Leaves the marks of an abandoned operation as they were.
fn forgets_the_mark(lent: Lent, call: &Call, units: Option<Calibration>, words: &mut [i64]) -> u64 {
    let before = lent.marks.to_vec();
    let marks = &mut *lent.marks;
    let number = proved::station(Lent { marks, ..lent }, call, units, words);
    if *call == Call::Abandon {
        lent.marks.copy_from_slice(&before);
    }
    number
}

#[test]
fn a_station_that_forgets_the_mark() {
    let station = forgets_the_mark;
    let small = found(Archive { station, ..PROVED }, "lives");
    let Input::Life(_, calls) = &small else {
        panic!("{small}");
    };
    let [Call::Write(..) | Call::Hold(_), Call::Abandon] = &calls[..] else {
        panic!("{small}");
    };
}

/// Gives the double next to the reading in units.
fn rounds_wrongly(lent: Lent, call: &Call, units: Option<Calibration>, words: &mut [i64]) -> u64 {
    let number = proved::station(lent, call, units, words);
    if words[0] == 6 {
        words[2] ^= 1;
    }
    number
}

#[test]
fn a_station_that_rounds_wrongly() {
    let station = rounds_wrongly;
    let small = found(
        Archive { station, ..PROVED },
        "lives with readings in units",
    );
    let Input::Life(_, calls) = &small else {
        panic!("{small}");
    };
    // before it at most what makes the variable readable
    let begins = |call: &Call| matches!(call, Call::Calibrated(..));
    let begun = calls.iter().position(begins).expect("a read in units");
    let mut rest = calls[begun + 1..].iter();
    assert!(rest.all(|call| matches!(call, Call::Confirm(_))), "{small}");
    assert!(calls.len() < 20, "{small}");
}
