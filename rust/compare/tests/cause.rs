//! The causes that the crate for Rust tells, over stored and generated texts: every refused text gets one, and where
//! its number stands for several it is one of those.

use compare::seen::Seen;
use desfanuk::{Description, Refused};
use second::generate::{self, Random};
use second::{frame, load_into, Loaded, PARAMETER_WORDS, REGISTER_WORDS, VARIABLE_WORDS};

/// The refusals that stand for several causes.
const SEVERAL: [u8; 10] = [3, 4, 5, 7, 8, 9, 10, 11, 12, 13];

fn is_accepted(text: &[u8]) -> bool {
    let [mut parameters, mut registers, mut variables] =
        [PARAMETER_WORDS, REGISTER_WORDS, VARIABLE_WORDS].map(|words| vec![0; words]);
    let loaded = load_into(text, &mut parameters, &mut registers, &mut variables);
    matches!(loaded, Loaded::Accepted { .. })
}

fn note(text: &[u8], seen: &mut Seen) {
    let Err(refused) = Description::load(text) else {
        return;
    };
    let Refused { refusal, cause, .. } = refused;
    let has_several = SEVERAL.contains(&refusal.number());
    let is_one = cause != refusal.words();
    let text = String::from_utf8_lossy(text);
    assert_eq!(has_several, is_one, "{refused}: {text}");
    seen.note(cause);
}

#[test]
fn every_refused_text_has_one_cause() {
    let mut seen = Seen::default();
    let stored = include_bytes!("../../../crates/cases/stdin");
    for text in frame::read_all(stored).expect("framed texts") {
        note(text, &mut seen);
    }
    let mut random = Random::new(2301);
    for _ in 0..6_000 {
        note(&generate::text(&mut random), &mut seen);
    }
    for rule in SEVERAL {
        for _ in 0..300 {
            note(&generate::broken(&mut random, rule), &mut seen);
        }
    }
    let often = [
        "no token begins here",
        "a piece names no register declared earlier",
        "the offset is not in the parameter's set",
        "the text ends where more is due",
        "no description goes on with this token",
        "an earlier register is read at the same place",
        "an earlier register is written at the same place, and no fixed bit tells the two apart",
        "a bad pairing of ports",
        "a mask has not as many elements as the register's stated width",
        "a range rises",
        "a bit is no dot in that part's mask",
        "a register has not that part",
        "the type's width is unlike the bits",
        "the parts' widths differ",
        "`trigger` is given for a missing part",
    ];
    seen.require("causes", often, 5);
}

/// A register and a variable, the cause, and both when that is mended.
const MENDED: [[&str; 5]; 6] = [
    [
        "7/0",
        "r:int(8)",
        "an offset divides by zero",
        "3",
        "r:int(8)",
    ],
    [
        "1-2",
        "r:int(8)",
        "the offset is not in the parameter's set",
        "2-1",
        "r:int(8)",
    ],
    [
        "0,mask '0......'",
        "r[6..0]:int(7)",
        "a mask has not as many elements as the register's stated width",
        "0,mask '0.......'",
        "r[6..0]:int(7)",
    ],
    [
        "0,mask '0.......'",
        "r:int(8)",
        "a bit is no dot in that part's mask",
        "0,mask '0.......'",
        "r[6..0]:int(7)",
    ],
    [
        "0",
        "r[0..7]:int(8)",
        "a range rises",
        "0",
        "r[7..0]:int(8)",
    ],
    [
        "0",
        "r,trigger,read trigger:int(8)",
        "`trigger` is repeated for a part",
        "0",
        "r,trigger:int(8)",
    ],
];

/// A cause is the right one: mending it, and nothing else, mends the text.
#[test]
fn mending_the_cause_mends_the_text() {
    let text = |register: &str, variable: &str| {
        format!(
            "device d(base:bit[8] port@{{0..3}}){{register r=base@{register}:bit[8];\
             variable v={variable};}}"
        )
    };
    for [register, variable, cause, mended_register, mended_variable] in MENDED {
        let refused = Description::load(text(register, variable)).err();
        assert_eq!(
            refused.expect("refused").cause,
            cause,
            "{register} {variable}"
        );
        let mended = text(mended_register, mended_variable);
        assert!(is_accepted(mended.as_bytes()), "{mended}");
    }
}
