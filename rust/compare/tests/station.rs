//! Runs of station calls, in both implementations at once: good ones, refused ones, out of order,
//! abandoned at every step, over sound and damaged tables.

use compare::both::{lent, Both};
use compare::proved;
use compare::seen::Seen;
use desfanuk::raw::{self, ANSWER_WORDS};
use second::generate::{
    damaged_tables, every_step, run, some_number, sound_tables, valid, Random, TableSet,
};
use second::replay::Call;
use second::{load, tables, Answer, Description, Operation, Verdict};

const ANSWERS: [&str; 15] = [
    "opened",
    "offer",
    "done",
    "abandoned",
    "refused 20",
    "refused 21",
    "refused 22",
    "refused 23",
    "refused 24",
    "refused 25",
    "refused 26",
    "refused 27",
    "refused 28",
    "refused 52",
    "refused 55",
];

/// All answers but one.
fn answers_but(left_out: &str) -> impl Iterator<Item = &'static str> + '_ {
    ANSWERS
        .into_iter()
        .filter(move |answer| *answer != left_out)
}

fn described(text: &[u8]) -> (Description, TableSet) {
    let Verdict::Accepted { description } = load(text) else {
        panic!("a valid text is accepted");
    };
    let (parameters, registers, variables) = tables(&description);
    let set = TableSet {
        parameters,
        registers,
        variables,
    };
    (description, set)
}

/// A station over a text, with up to two bytes of record and marks more than it needs.
fn station(random: &mut Random, text: &[u8]) -> Both {
    let (description, set) = described(text);
    let record = description.registers.len() + random.below(3);
    let marks = description.variables.len() + random.below(3);
    Both::new(random, set, record, marks)
}

#[test]
fn generated_runs() {
    let mut random = Random::new(101);
    let mut seen = Seen::default();
    for _ in 0..300 {
        let text = valid(&mut random);
        let mut both = station(&mut random, &text);
        for call in run(&mut random, &text, 400) {
            if let Some(answer) = both.perform(&call) {
                seen.answer(answer);
            }
        }
    }
    seen.require("generated runs", answers_but("refused 20"), 100);
}

#[test]
fn every_step_abandoned() {
    let mut random = Random::new(102);
    let mut seen = Seen::default();
    for _ in 0..150 {
        let text = valid(&mut random);
        let mut both = station(&mut random, &text);
        for call in every_step(&mut random, &text) {
            if let Some(answer) = both.perform(&call) {
                seen.answer(answer);
            }
        }
    }
    seen.require(
        "abandoned at every step",
        ["opened", "offer", "done", "abandoned", "refused 28"],
        100,
    );
}

/// Any call, with numbers that fit the tables or nearly.
fn some_call(random: &mut Random, set: &TableSet) -> Call {
    let count = |table: &[u32], most: usize| {
        let count = table.first().copied().unwrap_or(0);
        (count as usize).min(most)
    };
    let registers = count(&set.registers, 70);
    let variables = count(&set.variables, 140);
    let variable = random.below(variables + 2);
    match random.below(12) {
        0 | 1 => {
            let length = registers.saturating_sub(1) + random.below(3);
            Call::Open((0..length).map(|_| some_number(random)).collect())
        }
        2 | 3 => Call::Read(variable),
        4 | 5 => Call::Write(variable, random.below(6) as i64 - 2),
        6..=8 => Call::Confirm(some_number(random)),
        9 => Call::Abandon,
        10 => Call::LendRecord(Some(registers.saturating_sub(1) + random.below(3))),
        _ => Call::LendMarks(Some(variables.saturating_sub(1) + random.below(3))),
    }
}

/// Tables in which a word was changed: most are refused by 20, and some are still sound.
#[test]
fn damaged_tables_are_refused() {
    let mut random = Random::new(103);
    let mut seen = Seen::default();
    for _ in 0..3000 {
        let set = damaged_tables(&mut random);
        let mut both = Both::new(&mut random, set, 66, 130);
        for _ in 0..12 {
            let call = some_call(&mut random, &both.tables);
            if let Some(answer) = both.perform(&call) {
                seen.answer(answer);
            }
        }
    }
    seen.require(
        "damaged tables",
        ["refused 20", "refused 21", "refused 24", "opened"],
        100,
    );
}

/// Other tables under an operation in hand: it is one that they allow, or not.
#[test]
fn tables_that_change_between_calls() {
    let mut random = Random::new(104);
    let mut seen = Seen::default();
    for _ in 0..400 {
        let first = sound_tables(&mut random);
        let second = sound_tables(&mut random);
        let mut both = Both::new(&mut random, first, 66, 130);
        both.perform(&Call::Open(vec![0x5A; 64]));
        let mut spare = second;
        for _ in 0..40 {
            let call = some_call(&mut random, &both.tables);
            if let Some(answer) = both.perform(&call) {
                seen.answer(answer);
            }
            if random.one_in(4) {
                std::mem::swap(&mut both.tables, &mut spare);
            }
        }
    }
    seen.require("tables that change", answers_but("refused 20"), 20);
}

const TEXT: &[u8] = b"device d(b:bit[8] port@{0..2}){register r=b:bit[8];\
    register s=b@1,mask '1..0*...':bit[8];register t=write b@2:bit[8];\
    variable v=r#s[6..5]:int(10);variable x=s[2..0]:signed int(3);variable w=t:int(8);}";

/// Every operation with numbers around those that the tables allow, before every call.
#[test]
fn every_operation_held() {
    let mut random = Random::new(105);
    let (description, set) = described(TEXT);
    let mut both = Both::new(&mut random, set, 3, 3);
    let calls = [
        Call::Open(vec![1, 2, 3]),
        Call::Read(0),
        Call::Write(1, -1),
        Call::Confirm(0xC3),
        Call::Confirm(0xFF),
        Call::Abandon,
    ];
    let mut seen = Seen::default();
    for variable in 0..=description.variables.len() {
        for step in 0..4 {
            for bits in (0..1100).chain([u32::MAX, 1 << 31]) {
                for call in &calls {
                    for operation in [
                        Operation::Reading {
                            variable,
                            step,
                            gathered: bits,
                        },
                        Operation::Writing {
                            variable,
                            step,
                            value: bits,
                        },
                    ] {
                        both.perform(&Call::Hold(operation));
                        if let Some(answer) = both.perform(call) {
                            seen.answer(answer);
                        }
                    }
                }
            }
        }
    }
    seen.require(
        "operations held",
        [
            "refused 22",
            "refused 23",
            "refused 52",
            "offer",
            "done",
            "abandoned",
        ],
        100,
    );
}

/// The calls on words, whatever they are: the number, and the answer's and operation's words after.
fn on_words(
    set: &TableSet,
    operation: &[u64],
    answer_len: usize,
) -> Vec<(u64, Vec<i64>, Vec<u64>)> {
    let tables = proved::words(lent(set));
    (0..5)
        .map(|call| {
            let (mut record, mut marks) = (vec![7; 3], vec![0; 3]);
            let mut words = operation.to_vec();
            let mut answer = vec![-5; answer_len];
            let (r, m, o, a) = (&mut record, &mut marks, &mut words[..], &mut answer[..]);
            let number = match call {
                0 => raw::begin_read(tables, r, m, o, 0, a),
                1 => raw::begin_write(tables, r, m, o, 0, 5, a),
                2 => raw::confirm(tables, r, m, o, 0, a),
                3 => raw::abandon(tables, r, m, o, a),
                _ => raw::open(tables, &[1, 2, 3], r, m, o, a),
            };
            if call < 4 && number != 0 {
                assert_eq!((&record, &marks), (&vec![7; 3], &vec![0; 3]));
            }
            (number, answer, words)
        })
        .collect()
}

/// Words that are no operation are refused by 22 and stay; an opening replaces them.
#[test]
fn words_that_are_no_operation() {
    let (_, set) = described(TEXT);
    let mut cases: Vec<Vec<u64>> = (0..4).map(|length| vec![0; length]).collect();
    cases.extend((0..4).map(|length| vec![1; length]));
    for kind in [3, 4, 255, 1 << 32, u64::MAX] {
        cases.push(vec![kind, 0, 0, 0]);
        cases.push(vec![kind, 0, 0, 0, 9]);
    }
    // Numbers past 32 bits, which must not be cut to ones that the tables allow.
    for big in [1 << 32, 1 << 63, u64::MAX] {
        for kind in [1, 2] {
            cases.push(vec![kind, big, 0, 0]);
            cases.push(vec![kind, 0, big, 0]);
            cases.push(vec![kind, 0, 0, big]);
        }
    }
    for words in cases {
        for answer_len in 0..8 {
            for (call, (number, answer, after)) in
                on_words(&set, &words, answer_len).into_iter().enumerate()
            {
                let (want, number_wanted, words_after) = if call < 4 {
                    ([0, 22, 0, 0, 0], 22, words.clone())
                } else {
                    let mut left = words.clone();
                    left.iter_mut().take(4).for_each(|word| *word = 0);
                    ([1, 0, 0, 0, 0], 0, left)
                };
                assert_eq!(number, number_wanted, "{words:?}");
                assert_eq!(after, words_after);
                for (i, word) in answer.iter().enumerate() {
                    assert_eq!(*word, *want.get(i).unwrap_or(&-5));
                }
            }
        }
    }
}

/// Kind 0 is no operation in hand, whatever the other words are; words behind the fourth stay.
#[test]
fn idle_words() {
    let (_, set) = described(TEXT);
    let words = [0, 9, 9, 9, 1234];
    let after = on_words(&set, &words, ANSWER_WORDS);
    assert_eq!(after[0], (0, vec![2, 0, 0, 0, 0], vec![1, 0, 0, 0, 1234]));
    assert_eq!(after[1].0, 0);
    assert_eq!(after[1].2, [2, 0, 0, 5, 1234]);
    assert_eq!(after[2], (24, vec![0, 24, 0, 0, 0], words.to_vec()));
    assert_eq!(after[3], (24, vec![0, 24, 0, 0, 0], words.to_vec()));
    assert_eq!(after[4], (0, vec![1, 0, 0, 0, 0], vec![0, 0, 0, 0, 1234]));
}

/// Values past every type, and variables past every table.
#[test]
fn large_numbers() {
    let mut random = Random::new(106);
    let mut both = station(&mut random, TEXT);
    assert_eq!(both.perform(&Call::Open(vec![0; 3])), Some(Answer::Opened));
    for value in [i64::MIN, -(1 << 32), -513, -5, 1024, 1 << 32, i64::MAX] {
        for variable in 0..3 {
            let answer = both.perform(&Call::Write(variable, value));
            let number = if value < 0 { 27 } else { 55 };
            assert_eq!(answer, Some(Answer::Refused(number)));
        }
    }
    for variable in [3, 128, 1 << 32, usize::MAX] {
        for call in [Call::Read(variable), Call::Write(variable, 0)] {
            assert_eq!(both.perform(&call), Some(Answer::Refused(25)));
        }
    }
}
