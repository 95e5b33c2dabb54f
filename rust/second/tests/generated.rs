//! Generated texts, tables and runs: what must hold of all of them.

use second::generate::{
    answers, broken, damaged_tables, distribution, every_step, run, sound_tables, text, valid,
    verdict_number, written, Random,
};
use second::replay::{Call, Session};
use second::{
    describe, load, load_into, lookup, scan, sound, tables, Description, Sign, Token, Verdict,
    Word, TEXT_BYTES,
};

fn accepted(text: &[u8]) -> Description {
    match load(text) {
        Verdict::Accepted { description } => description,
        refused => panic!("{refused}:\n{}", String::from_utf8_lossy(text)),
    }
}

#[test]
fn valid_texts_are_accepted_and_their_tables_sound() {
    let mut random = Random::new(1);
    let mut greatest = [0; 6];
    for _ in 0..400 {
        let text = valid(&mut random);
        let description = accepted(&text);
        let (parameters, registers, variables) = tables(&description);
        assert!(sound(&parameters, &registers, &variables));
        for (index, variable) in description.variables.iter().enumerate() {
            assert_eq!(
                lookup(&text, &variables, variable.name.of(&text)),
                Some(index)
            );
        }
        let ranges = description.parameters.iter().map(|p| p.ranges.len());
        let parts = description
            .variables
            .iter()
            .flat_map(|v| [&v.read, &v.write]);
        let pieces = parts.flatten().map(|bits| bits.pieces.len());
        let widths = description.variables.iter().map(|v| v.width as usize);
        for (most, value) in greatest.iter_mut().zip([
            description.parameters.len(),
            ranges.max().unwrap(),
            description.registers.len(),
            description.variables.len(),
            pieces.max().unwrap_or(0),
            widths.max().unwrap_or(0),
        ]) {
            *most = value.max(*most);
        }
    }
    assert_eq!(greatest, [16, 16, 64, 128, 8, 32], "every limit is reached");
}

#[test]
fn nothing_less_and_nothing_more_than_a_valid_text() {
    let mut random = Random::new(2);
    for _ in 0..100 {
        let text = valid(&mut random);
        let end = text.iter().rposition(|b| *b == b'}').unwrap();
        let cut = random.below(end + 1);
        assert!(matches!(
            load(&text[..cut]),
            Verdict::Refused { number: 3..=5, .. }
        ));
        if text.len() < TEXT_BYTES {
            let more = [&text[..], b"$"].concat();
            let want = Verdict::Refused {
                number: 3,
                place: text.len(),
            };
            assert_eq!(load(&more), want);
        }
    }
}

#[test]
fn every_rule_is_broken_often() {
    let mut random = Random::new(3);
    for rule in 2..=16 {
        let tries = 40;
        let hits = (0..tries)
            .filter(|_| verdict_number(&broken(&mut random, rule)) == usize::from(rule))
            .count();
        assert!(4 * hits >= tries, "rule {rule}: {hits} of {tries}");
    }
}

#[test]
fn the_mixture_has_every_verdict() {
    let seen = distribution(4, 1500);
    for (number, count) in seen.into_iter().enumerate() {
        assert_eq!(count >= 15, number != 1, "refusal {number}: {count}");
    }
}

/// A register that is only written, refused by rule 10: no bit tells it from another at its place.
fn only_written(text: &[u8], place: usize) -> bool {
    let mut words = Vec::new();
    let mut at = place;
    while let Ok(lexeme) = scan(text, at) {
        at = lexeme.end;
        match lexeme.token {
            Token::Sign(Sign::Semicolon) | Token::End => break,
            Token::Word(word) => words.push(word),
            _ => {}
        }
    }
    words[0] == Word::Write && !words.contains(&Word::Read)
}

/// Both sides of a shared write place come once in a hundred texts: registers that are told apart,
/// and a register that is not.
#[test]
fn the_mixture_has_shared_places() {
    let mut random = Random::new(4);
    let (mut told, mut untold) = (0, 0);
    for _ in 0..1500 {
        let text = text(&mut random);
        match load(&text) {
            Verdict::Accepted { description } => {
                told += usize::from(!description.beside().is_empty())
            }
            Verdict::Refused { number: 10, place } => {
                untold += usize::from(only_written(&text, place))
            }
            Verdict::Refused { .. } => {}
        }
    }
    assert!(told >= 15 && untold >= 15, "{told}, {untold}");
}

#[test]
fn loading_into_tables_agrees_with_loading() {
    let mut random = Random::new(5);
    let mut lent = [vec![7; 580], vec![7; 965], vec![7; 7560]];
    for _ in 0..300 {
        let text = text(&mut random);
        let verdict = load(&text);
        let before = lent.clone();
        let [p, r, v] = &mut lent;
        let loaded = load_into(&text, p, r, v);
        assert_eq!(loaded.to_string(), verdict.to_string());
        let want: [Vec<u32>; 3] = match verdict {
            Verdict::Accepted { description } => tables(&description).into(),
            Verdict::Refused { number: 2, .. } => {
                assert_eq!(lent, before);
                continue;
            }
            Verdict::Refused { place, .. } => {
                assert!(place <= text.len());
                [vec![0; 577], vec![0; 961], vec![0; 7553]]
            }
        };
        for (table, want) in lent.iter().zip(&want) {
            assert_eq!(table[..want.len()], want[..]);
            assert!(table[want.len()..].iter().all(|word| *word == 7));
        }
    }
}

#[test]
fn damaged_tables_are_told_from_sound_ones() {
    let mut random = Random::new(6);
    let (mut unsound, mut told, mut untold) = (0, 0, 0);
    for _ in 0..600 {
        let set = sound_tables(&mut random);
        assert!(sound(&set.parameters, &set.registers, &set.variables));
        let set = damaged_tables(&mut random);
        let is_sound = sound(&set.parameters, &set.registers, &set.variables);
        unsound += usize::from(!is_sound);
        let Some(description) = describe(&set.parameters, &set.registers, &set.variables) else {
            continue;
        };
        let pairs = description.beside();
        let mask = |register: usize| description.registers[register].write.unwrap().mask;
        match pairs
            .iter()
            .all(|(one, other)| mask(*one).told_from(&mask(*other)))
        {
            true => told += usize::from(is_sound && !pairs.is_empty()),
            false => {
                assert!(!is_sound);
                untold += 1;
            }
        }
    }
    assert!((300..600).contains(&unsound), "{unsound} of 600");
    assert!(told >= 6 && untold >= 6, "{told}, {untold} of 600");
}

/// Every line of a run is answered, and a refusal changes nothing; 52 ends the operation, and that is all.
#[test]
fn refusals_leave_the_state() {
    let mut random = Random::new(7);
    for _ in 0..120 {
        let text = valid(&mut random);
        let mut session = Session::new(&text).unwrap();
        for call in run(&mut random, &text, 60) {
            let before = session.perform(&Call::State);
            let answer = session.perform(&call);
            if answer.starts_with("refused 52 ") {
                let (kept, _) = before.split_once("operation").unwrap();
                let ended = format!("{kept}operation idle");
                assert_eq!(session.perform(&Call::State), ended);
            } else if answer.starts_with("refused") {
                assert_eq!(session.perform(&Call::State), before);
            }
        }
    }
}

/// Sound tables leave no refusal 20; every other answer of a station comes once in a hundred times.
#[test]
fn runs_have_every_answer() {
    let seen = answers(4, 200, run);
    let total: usize = seen.values().sum();
    for kind in [
        "opened",
        "offer",
        "done",
        "abandoned",
        "21",
        "22",
        "23",
        "24",
        "25",
        "26",
        "27",
        "28",
        "52",
        "55",
    ] {
        let count = seen.get(kind).copied().unwrap_or(0);
        assert!(100 * count >= total, "{kind}: {seen:?}");
    }
    assert!(seen.contains_key("variable") && seen.contains_key("none"));
    assert!(!seen.contains_key("20"));
}

#[test]
fn every_step_can_be_abandoned() {
    let mut random = Random::new(8);
    let mut contradicted = 0;
    for _ in 0..60 {
        let text = valid(&mut random);
        let description = accepted(&text);
        if description.variables.len() > 20 {
            continue;
        }
        let mut session = Session::new(&text).unwrap();
        for call in every_step(&mut random, &text) {
            let answer = session.perform(&call);
            let expected = match call {
                Call::Open(_) => answer == "opened",
                Call::Abandon => answer == "abandoned",
                Call::Write(..) => answer.starts_with("offer write"),
                Call::Confirm(_) => ["offer", "done", "refused 52 "]
                    .iter()
                    .any(|a| answer.starts_with(a)),
                Call::Read(_) => ["offer read", "refused 26", "refused 28"]
                    .iter()
                    .any(|a| answer.starts_with(a)),
                _ => answer.starts_with("record"),
            };
            assert!(expected, "{call}: {answer}");
            contradicted += usize::from(answer.starts_with("refused 52 "));
        }
    }
    assert!(contradicted > 20, "{contradicted}");
}

/// Tables are sound exactly when their description, written down, is accepted and gives the same
/// tables again, names aside: `sound` and `load` know the same rules.
#[test]
fn sound_is_what_the_loader_accepts() {
    let mut random = Random::new(9);
    let mut seen = [0; 2];
    for round in 0..1500 {
        let set = match round % 10 {
            0 => sound_tables(&mut random),
            _ => damaged_tables(&mut random),
        };
        let mut lent = [
            set.parameters.clone(),
            set.registers.clone(),
            set.variables.clone(),
        ];
        let is_sound = sound(&lent[0], &lent[1], &lent[2]);
        let Some(description) = describe(&lent[0], &lent[1], &lent[2]) else {
            assert!(!is_sound);
            continue;
        };
        let text = written(&description);
        if text.len() > TEXT_BYTES {
            continue;
        }
        for (table, size) in lent.iter_mut().zip([577, 961, 7553]) {
            table.truncate(size);
        }
        let loads = match load(&text) {
            Verdict::Refused { .. } => false,
            Verdict::Accepted { description } => {
                let mut again: [Vec<u32>; 3] = tables(&description).into();
                copy_names(&lent, &mut again);
                again == lent
            }
        };
        assert_eq!(is_sound, loads, "{}", String::from_utf8_lossy(&text));
        seen[usize::from(is_sound)] += 1;
    }
    assert!(seen.iter().all(|count| *count > 200), "{seen:?}");
}

/// Takes the recorded names of used entries over.
fn copy_names(from: &[Vec<u32>; 3], to: &mut [Vec<u32>; 3]) {
    for ((from, to), entry) in from.iter().zip(to).zip([36, 15, 59]) {
        for i in 0..to[0] as usize {
            let at = 1 + entry * i;
            to[at..at + 2].copy_from_slice(&from[at..at + 2]);
        }
    }
}
