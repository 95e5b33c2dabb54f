//! Loading, in both implementations: the answer, and every word of the three tables.

use compare::both::lent;
use compare::proved;
use compare::seen::Seen;
use desfanuk::raw;
use second::generate::{self, valid, Random, TableSet};
use second::{
    frame, load_into, Loaded, PARAMETER_WORDS, REGISTER_WORDS, TEXT_BYTES, VARIABLE_WORDS,
};

const SIZES: [usize; 3] = [PARAMETER_WORDS, REGISTER_WORDS, VARIABLE_WORDS];

/// Tables of these lengths that hold anything.
fn filled(random: &mut Random, lengths: [usize; 3]) -> TableSet {
    let mut table = |length| (0..length).map(|_| random.number() as u32).collect();
    TableSet {
        parameters: table(lengths[0]),
        registers: table(lengths[1]),
        variables: table(lengths[2]),
    }
}

/// Loads a text in both into tables of these lengths.
fn agreed(random: &mut Random, text: &[u8], lengths: [usize; 3], seen: &mut Seen) -> Loaded {
    let mut second = filled(random, lengths);
    let mut first = second.clone();
    let want = load_into(
        text,
        &mut second.parameters,
        &mut second.registers,
        &mut second.variables,
    );
    let got = proved::load(
        text,
        &mut first.parameters,
        &mut first.registers,
        &mut first.variables,
    );
    assert_eq!(got, want, "{}", String::from_utf8_lossy(text));
    assert!(
        first == second,
        "tables of {}",
        String::from_utf8_lossy(text)
    );
    match want {
        Loaded::Accepted { .. } => {
            assert!(raw::sound(proved::words(lent(&first))));
            seen.note("accepted");
        }
        Loaded::Refused { number, .. } => seen.note(format!("refused {number:02}")),
    }
    want
}

/// The stated sizes, and up to three words more.
fn long_enough(random: &mut Random) -> [usize; 3] {
    SIZES.map(|size| size + random.below(4))
}

/// Refusals from `first` to 16, and accepting.
fn verdicts(first: usize) -> Vec<String> {
    (first..=16)
        .map(|number| format!("refused {number:02}"))
        .chain(["accepted".to_string()])
        .collect()
}

#[test]
fn stored_cases() {
    let texts = frame::read_all(include_bytes!("../../../crates/cases/stdin")).expect("frames");
    let lines = include_str!("../../../crates/cases/stdout");
    let mut random = Random::new(401);
    let mut seen = Seen::default();
    assert_eq!(texts.len(), lines.lines().count());
    for (text, line) in texts.into_iter().zip(lines.lines()) {
        let lengths = long_enough(&mut random);
        let loaded = agreed(&mut random, text, lengths, &mut seen);
        assert_eq!(loaded.to_string(), line);
    }
    seen.require("stored texts", verdicts(2).iter().map(String::as_str), 1);
}

#[test]
fn generated_texts() {
    let mut random = Random::new(402);
    let mut seen = Seen::default();
    for _ in 0..20_000 {
        let text = generate::text(&mut random);
        let lengths = long_enough(&mut random);
        agreed(&mut random, &text, lengths, &mut seen);
    }
    seen.require(
        "generated texts",
        verdicts(2).iter().map(String::as_str),
        50,
    );
}

/// Refusal 1 at every length around the stated sizes, whatever the text, and nothing touched.
#[test]
fn short_tables() {
    let mut random = Random::new(403);
    let mut seen = Seen::default();
    for _ in 0..8 {
        let text = generate::text(&mut random);
        for round in 0..125 {
            let by = [round % 5, round / 5 % 5, round / 25];
            let lengths = [0, 1, 2].map(|table| SIZES[table] + by[table] - 2);
            let loaded = agreed(&mut random, &text, lengths, &mut seen);
            let short = by.iter().any(|by| *by < 2);
            let refused = loaded
                == Loaded::Refused {
                    number: 1,
                    place: 0,
                };
            assert_eq!(short, refused);
        }
        for table in 0..3 {
            for length in [0, 1, 10] {
                let mut lengths = SIZES;
                lengths[table] = length;
                agreed(&mut random, &text, lengths, &mut seen);
            }
        }
    }
    seen.require("short tables", ["refused 01"], 500);
}

/// Texts of 8,191, 8,192 and 8,193 bytes.
#[test]
fn the_longest_texts() {
    let mut random = Random::new(404);
    let mut seen = Seen::default();
    for round in 0..300 {
        let mut text = match round % 3 {
            0 => generate::text(&mut random),
            _ => valid(&mut random),
        };
        if text.len() > TEXT_BYTES - 4 {
            text.truncate(TEXT_BYTES - 4);
        }
        // Filled up with blanks, with a comment, or with bytes.
        let filler: &dyn Fn(usize) -> u8 = match random.below(4) {
            0 => &|_| b' ',
            1 => &|i| if i == 0 || i == 1 { b'/' } else { b'x' },
            2 => &|i| b";} \n"[i % 4],
            _ => &|i| i as u8,
        };
        let start = text.len();
        for length in [TEXT_BYTES - 1, TEXT_BYTES, TEXT_BYTES + 1, TEXT_BYTES + 100] {
            let mut long = text.clone();
            long.extend((0..length - start).map(filler));
            let loaded = agreed(&mut random, &long, SIZES, &mut seen);
            let too_long = loaded
                == Loaded::Refused {
                    number: 2,
                    place: 0,
                };
            assert_eq!(too_long, length > TEXT_BYTES);
        }
    }
    seen.require(
        "long texts",
        ["refused 02", "refused 03", "refused 04", "accepted"],
        50,
    );
}

/// Every beginning of some texts, and every byte of some changed.
#[test]
fn cut_and_changed() {
    let mut random = Random::new(405);
    let mut seen = Seen::default();
    for _ in 0..12 {
        let text = loop {
            let text = valid(&mut random);
            if text.len() < 1500 {
                break text;
            }
        };
        for end in 0..=text.len() {
            agreed(&mut random, &text[..end], SIZES, &mut seen);
        }
        for at in 0..text.len() {
            let mut changed = text.clone();
            changed[at] = *random.pick(b"azr019'.*#@=,:;()[]{}/-+% \n\r\0\x7f\xff");
            agreed(&mut random, &changed, SIZES, &mut seen);
            let mut less = text.clone();
            less.remove(at);
            agreed(&mut random, &less, SIZES, &mut seen);
        }
    }
    seen.require(
        "cut and changed",
        ["refused 03", "refused 04", "refused 07", "accepted"],
        50,
    );
}

/// The verdict's words: those that there is room for, and none behind them.
#[test]
fn room_for_the_verdict() {
    let text = b"device d(base:bit[8] port){register r=base:bit[8];variable v=r:int(8);}";
    for (text, number, want) in [
        (&text[..], 0, [1, 1, 1, 1]),
        (&text[..70], 4, [0, 4, 70, 0]),
    ] {
        for length in 0..8 {
            let [mut p, mut r, mut v] = SIZES.map(|size| vec![9; size]);
            let mut words = vec![77; length];
            let got = raw::load(text, &mut p, &mut r, &mut v, &mut words);
            assert_eq!(got, number);
            for (at, word) in words.iter().enumerate() {
                assert_eq!(*word, *want.get(at).unwrap_or(&77));
            }
        }
    }
}
