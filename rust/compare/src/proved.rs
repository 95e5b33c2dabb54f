//! The proved calls, in the second implementation's types. Its own decoding of words: what crate
//! `desfanuk` makes of them is tested apart from it.

use desfanuk::raw;
use second::replay::Call;
use second::{Access, Answer, Calibration, Loaded, Operation, Part, Tables, Taken};

pub use desfanuk::raw::{ANSWER_WORDS, OPERATION_WORDS, VERDICT_WORDS};

/// Tables as the proved calls take them.
pub fn words(tables: Tables) -> raw::Tables {
    raw::Tables {
        parameters: tables.parameters,
        registers: tables.registers,
        variables: tables.variables,
    }
}

/// Loads a text.
pub fn load(
    text: &[u8],
    parameters: &mut [u32],
    registers: &mut [u32],
    variables: &mut [u32],
) -> Loaded {
    let mut words = [u64::MAX; VERDICT_WORDS];
    let number = raw::load(text, parameters, registers, variables, &mut words);
    told_verdict(&words, number)
}

/// Takes a piece of a text.
pub fn take_piece(tables: raw::Tables, store: &mut [u8], taken: &mut [u64], piece: &[u8]) -> Taken {
    let mut words = [u64::MAX; VERDICT_WORDS];
    let number = raw::take_piece(tables, store, taken, piece, &mut words);
    if words == [2, 0, 0, 0] {
        assert_eq!(number, 0, "the number returned");
        return Taken::More;
    }
    Taken::Verdict(told_verdict(&words, number))
}

/// Ends a text in pieces.
pub fn end_pieces(
    store: &[u8],
    taken: &mut [u64],
    parameters: &mut [u32],
    registers: &mut [u32],
    variables: &mut [u32],
) -> Loaded {
    let mut words = [u64::MAX; VERDICT_WORDS];
    let number = raw::end_pieces(store, taken, parameters, registers, variables, &mut words);
    told_verdict(&words, number)
}

/// The verdict that words stand for, and the number that was returned with it.
fn told_verdict(words: &[u64; VERDICT_WORDS], number: u32) -> Loaded {
    let loaded = verdict_of(words);
    let refusal = match loaded {
        Loaded::Accepted { .. } => 0,
        Loaded::Refused { number, .. } => u32::from(number),
    };
    assert_eq!(number, refusal, "the number returned");
    loaded
}

/// The verdict that words stand for. Words that stand for none are a fault of the call.
pub fn verdict_of(words: &[u64; VERDICT_WORDS]) -> Loaded {
    let number = |word: u64| usize::try_from(word).expect("a number of a verdict");
    match *words {
        [0, refusal, place, 0] => Loaded::Refused {
            number: u8::try_from(refusal).expect("a refusal"),
            place: number(place),
        },
        [1, parameters, registers, variables] => Loaded::Accepted {
            parameters: number(parameters),
            registers: number(registers),
            variables: number(variables),
        },
        _ => panic!("no verdict: {words:?}"),
    }
}

/// What a call of the station is lent.
pub struct Lent<'l> {
    pub tables: raw::Tables<'l>,
    pub record: &'l mut [u32],
    pub marks: &'l mut [u8],
    pub operation: &'l mut [u64],
}

/// Makes a call of the station, and gives the number returned; a confirmation is in units where a
/// calibration is lent with it.
pub fn station(lent: Lent, call: &Call, units: Option<Calibration>, words: &mut [i64]) -> u64 {
    let Lent {
        tables,
        record,
        marks,
        operation,
    } = lent;
    match call {
        Call::Open(power) => raw::open(tables, power, record, marks, operation, words),
        Call::Read(v) => raw::begin_read(tables, record, marks, operation, *v, words),
        Call::Write(v, value) => {
            raw::begin_write(tables, record, marks, operation, *v, *value, words)
        }
        Call::Calibrated(v, Calibration { gain, offset }) => {
            raw::begin_read_in_units(tables, record, marks, operation, *v, *gain, *offset, words)
        }
        Call::Confirm(number) => match units {
            None => raw::confirm(tables, record, marks, operation, *number, words),
            Some(Calibration { gain, offset }) => raw::confirm_in_units(
                tables, record, marks, operation, *number, gain, offset, words,
            ),
        },
        _ => raw::abandon(tables, record, marks, operation, words),
    }
}

/// The words that stand for an operation.
pub fn operation_words(operation: Operation) -> [u64; OPERATION_WORDS] {
    match operation {
        Operation::Idle => [0; OPERATION_WORDS],
        Operation::Reading {
            variable,
            step,
            gathered,
        } => [1, variable as u64, step as u64, u64::from(gathered)],
        Operation::Writing {
            variable,
            step,
            value,
        } => [2, variable as u64, step as u64, u64::from(value)],
    }
}

/// The answer that words stand for. Words that stand for none are a fault of the call.
pub fn answer_of(words: &[i64; ANSWER_WORDS]) -> Answer {
    let number = |word: i64| usize::try_from(word).expect("a number of an answer");
    match *words {
        [0, refusal, 0, 0, 0] => Answer::Refused(u8::try_from(refusal).expect("a refusal")),
        [1, 0, 0, 0, 0] => Answer::Opened,
        [2, direction, parameter, offset, written] => Answer::Offer(Access {
            direction: match direction {
                0 => Part::Read,
                1 => Part::Write,
                other => panic!("direction {other}"),
            },
            parameter: number(parameter),
            offset: u32::try_from(offset).expect("an offset"),
            number: u32::try_from(written).expect("a number of a register"),
        }),
        [3, value, accesses, 0, 0] => Answer::Done {
            value,
            accesses: number(accesses),
        },
        [4, 0, 0, 0, 0] => Answer::Abandoned,
        [5, 52, register, 0, 0] => Answer::Contradicted {
            register: number(register),
        },
        [5, 54, 0, 0, 0] => Answer::NotFinite,
        [6, high, low, accesses, 0] => {
            let half = |word: i64| u64::from(u32::try_from(word).expect("half of a double"));
            Answer::Measured {
                bits: half(high) << 32 | half(low),
                accesses: number(accesses),
            }
        }
        _ => panic!("no answer: {words:?}"),
    }
}
