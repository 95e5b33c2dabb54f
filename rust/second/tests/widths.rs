//! Generated texts, tables and runs over ports of every width: each side of a rule on widths comes at
//! least once in a hundred, and bits above a width count as 0.

use std::collections::{BTreeMap, HashMap};

use second::board::is_wide;
use second::generate::{bits_above, damaged_tables, run, text, valid, Random};
use second::replay::{Call, Session};
use second::{
    abandon, begin_read, begin_write, confirm, describe, load, open, scan, sound, tables, Answer,
    Description, Lexeme, Operation, Part, Register, Sign, Tables, Token, Verdict, Word, PARTS,
    WIDTHS,
};

type Seen = BTreeMap<&'static str, usize>;

/// Each of these came at least once in a hundred times.
fn require(seen: &Seen, total: usize, kinds: &[&str]) {
    for kind in kinds {
        let count = seen.get(kind).copied().unwrap_or(0);
        assert!(100 * count >= total, "{kind}: {seen:?} of {total}");
    }
}

fn tokens(text: &[u8]) -> Vec<Lexeme> {
    let mut tokens = Vec::new();
    let mut at = 0;
    while let Ok(lexeme) = scan(text, at) {
        if lexeme.token == Token::End {
            break;
        }
        tokens.push(lexeme);
        at = lexeme.end;
    }
    tokens
}

/// The width that a definition of a register states: its last number.
fn stated_width(definition: &[Lexeme]) -> Option<u32> {
    definition
        .iter()
        .rev()
        .find_map(|lexeme| match lexeme.token {
            Token::Number(width) => Some(width),
            _ => None,
        })
}

/// The width that each register of a text states.
fn stated_widths<'t>(text: &'t [u8], tokens: &[Lexeme]) -> HashMap<&'t [u8], u32> {
    let declarations = tokens.split(|lexeme| lexeme.token == Token::Sign(Sign::Semicolon));
    let mut widths = HashMap::new();
    for declaration in declarations {
        let register = |lexeme: &Lexeme| lexeme.token == Token::Word(Word::Register);
        if let Some(at) = declaration.iter().position(register) {
            let name = declaration[at + 1];
            let width = stated_width(&declaration[at..]);
            widths.insert(&text[name.place..name.end], width.unwrap_or(0));
        }
    }
    widths
}

/// Whether a bit list has a bit that its register is too narrow for.
fn bit_over(text: &[u8], definition: &[Lexeme], widths: &HashMap<&[u8], u32>) -> bool {
    let mut width = None;
    definition.iter().any(|lexeme| match lexeme.token {
        Token::Name => {
            width = widths.get(&text[lexeme.place..lexeme.end]).copied();
            false
        }
        Token::Sign(Sign::CloseBracket) => {
            width = None;
            false
        }
        Token::Number(bit) => width.is_some_and(|width| bit >= width),
        _ => false,
    })
}

/// What a refusal of a rule that reads widths was given for, told from the declaration at its place.
fn cause(text: &[u8], number: u8, place: usize) -> Option<&'static str> {
    let tokens = tokens(text);
    let at = tokens.iter().position(|lexeme| lexeme.place == place)?;
    let end = tokens[at..]
        .iter()
        .position(|lexeme| lexeme.token == Token::Sign(Sign::Semicolon))?;
    let definition = &tokens[at..at + end];
    let declared = tokens[at.checked_sub(1)?].token;
    let mut masks = definition
        .iter()
        .filter(|lexeme| lexeme.token == Token::Bits)
        .map(|mask| mask.end - mask.place - 2);
    let width = stated_width(definition)?;
    match (number, declared) {
        (9, _) => masks
            .any(|length| length != width as usize)
            .then_some("a mask of another length"),
        (11, _) => bit_over(text, definition, &stated_widths(text, &tokens))
            .then_some("a bit over the width"),
        (12, Token::Word(Word::Register)) if WIDTHS.contains(&width) => {
            Some("a register unlike its parameter")
        }
        (12, Token::Word(Word::Register)) => Some("a register of no width"),
        (12, Token::Word(Word::Variable)) => None,
        (12, _) => Some("a parameter of no width"),
        _ => None,
    }
}

/// What there is of widths in an accepted text.
fn shown(description: &Description) -> Vec<&'static str> {
    let registers = &description.registers;
    let wide = |register: &&Register| register.width > 8;
    let has = |width| registers.iter().any(|register| register.width == width);
    let ports = |register: &Register| PARTS.map(|part| register.part(part).copied());
    let masked = |register: &Register| ports(register).iter().flatten().any(|p| p.mask.fixed > 255);
    let beside = description.beside();
    [
        ("a register of 16 bits", has(16)),
        ("a register of 32 bits", has(32)),
        (
            "registers of two widths",
            WIDTHS.iter().filter(|w| has(**w)).count() > 1,
        ),
        (
            "a mask on a wide register",
            registers.iter().filter(wide).any(masked),
        ),
        (
            "a variable over a wide register",
            description.variables.iter().any(is_wide),
        ),
        (
            "wide registers told apart",
            beside.iter().any(|(later, _)| registers[*later].width > 8),
        ),
    ]
    .into_iter()
    .filter_map(|(what, there)| there.then_some(what))
    .collect()
}

#[test]
fn the_mixture_has_every_width() {
    let mut random = Random::new(4);
    let mut seen = Seen::new();
    for _ in 0..1500 {
        let text = text(&mut random);
        let noted = match load(&text) {
            Verdict::Accepted { description } => shown(&description),
            Verdict::Refused { number, place } => cause(&text, number, place).into_iter().collect(),
        };
        noted
            .into_iter()
            .for_each(|what| *seen.entry(what).or_insert(0) += 1);
    }
    require(
        &seen,
        1500,
        &[
            "a register of 16 bits",
            "a register of 32 bits",
            "registers of two widths",
            "a mask on a wide register",
            "a variable over a wide register",
            "wide registers told apart",
            "a mask of another length",
            "a bit over the width",
            "a parameter of no width",
            "a register of no width",
            "a register unlike its parameter",
        ],
    );
}

/// What is wrong with the widths that tables hold.
fn wrong_in_tables(description: &Description) -> Vec<&'static str> {
    let parameters = &description.parameters;
    let registers = &description.registers;
    let good = |width: u32| WIDTHS.contains(&width);
    let ports = || {
        let of = |register: &'_ Register| {
            let width = register.width;
            PARTS.map(|part| register.part(part).map(|port| (width, *port)))
        };
        registers.iter().flat_map(of).flatten()
    };
    let unlike = ports().any(|(width, port)| {
        let parameter = parameters.get(port.parameter);
        good(width) && parameter.is_some_and(|p| good(p.width) && p.width != width)
    });
    let above = ports().any(|(width, port)| {
        let bits = port.mask.dots | port.mask.fixed | port.mask.ones;
        good(width) && u64::from(bits) >> width != 0
    });
    let pieces = description.variables.iter().flat_map(|variable| {
        let parts = PARTS.map(|part| variable.part(part));
        parts.into_iter().flatten().flat_map(|bits| &bits.pieces)
    });
    let over = |register: &Register, bit: u32| good(register.width) && bit >= register.width;
    let mut pieces = pieces.filter_map(|piece| Some((registers.get(piece.register)?, piece.high)));
    [
        (
            "a parameter of no width",
            !parameters.iter().all(|p| good(p.width)),
        ),
        (
            "a register of no width",
            !registers.iter().all(|r| good(r.width)),
        ),
        ("a register unlike its parameter", unlike),
        ("a mask with a bit above", above),
        (
            "a piece with a bit above",
            pieces.any(|(register, bit)| over(register, bit)),
        ),
    ]
    .into_iter()
    .filter_map(|(what, there)| there.then_some(what))
    .collect()
}

#[test]
fn damaged_tables_have_wrong_widths() {
    let mut random = Random::new(6);
    let mut seen = Seen::new();
    for _ in 0..2000 {
        let set = damaged_tables(&mut random);
        let Some(description) = describe(&set.parameters, &set.registers, &set.variables) else {
            continue;
        };
        let is_sound = sound(&set.parameters, &set.registers, &set.variables);
        let wrong = wrong_in_tables(&description);
        assert!(wrong.is_empty() || !is_sound, "{wrong:?}");
        wrong
            .into_iter()
            .for_each(|what| *seen.entry(what).or_insert(0) += 1);
        if is_sound
            && description
                .registers
                .iter()
                .any(|register| register.width > 8)
        {
            *seen.entry("sound and wide").or_insert(0) += 1;
        }
    }
    require(
        &seen,
        2000,
        &[
            "a parameter of no width",
            "a register of no width",
            "a register unlike its parameter",
            "a mask with a bit above",
            "a piece with a bit above",
            "sound and wide",
        ],
    );
}

/// The register that an operation reads next.
fn read_next(description: &Description, operation: Operation) -> Option<usize> {
    let Operation::Reading { variable, step, .. } = operation else {
        return None;
    };
    let mut registers = Vec::new();
    for piece in &description.variables.get(variable)?.read.as_ref()?.pieces {
        if !registers.contains(&piece.register) {
            registers.push(piece.register);
        }
    }
    registers.get(step).copied()
}

/// Whether a number has bits above the register's width.
fn above(register: &Register, number: u32) -> bool {
    register.cut(number) != number
}

#[test]
fn runs_have_every_width() {
    let mut random = Random::new(4);
    let mut seen = Seen::new();
    let (mut total, mut contradicted) = (0, 0);
    for _ in 0..200 {
        let text = valid(&mut random);
        let Verdict::Accepted { description } = load(&text) else {
            panic!("a valid text is accepted");
        };
        let mut session = Session::new(&text).unwrap();
        for call in run(&mut random, &text, 60) {
            total += 1;
            let reading = read_next(&description, session.operation());
            let answer = session.perform(&call);
            let digits = answer
                .rsplit_once(" 0x")
                .map_or(0, |(_, number)| number.len());
            let confirmed = ["offer", "done", "refused 52 "];
            let kind = match (&call, reading) {
                (Call::Open(numbers), _) if answer == "opened" => {
                    let mut numbers = description.registers.iter().zip(numbers);
                    numbers
                        .any(|(register, number)| above(register, *number))
                        .then_some("opened with bits above")
                }
                (Call::Confirm(number), Some(register))
                    if confirmed.iter().any(|start| answer.starts_with(start)) =>
                {
                    let register = &description.registers[register];
                    above(register, *number).then_some("read with bits above")
                }
                _ => None,
            };
            contradicted += usize::from(kind.is_some() && answer.starts_with("refused 52 "));
            let offered = match digits {
                4 => Some("a number of 16 bits offered"),
                8 => Some("a number of 32 bits offered"),
                _ => None,
            };
            kind.into_iter()
                .chain(offered)
                .for_each(|what| *seen.entry(what).or_insert(0) += 1);
        }
    }
    require(
        &seen,
        total,
        &[
            "opened with bits above",
            "read with bits above",
            "a number of 16 bits offered",
            "a number of 32 bits offered",
        ],
    );
    assert!(contradicted > 20, "{contradicted} contradicted");
}

/// A station with the state that its caller keeps.
struct Kept {
    record: Vec<u32>,
    marks: Vec<u8>,
    operation: Operation,
}

impl Kept {
    fn new(description: &Description) -> Kept {
        Kept {
            record: vec![0; description.registers.len()],
            marks: vec![0; description.variables.len()],
            operation: Operation::Idle,
        }
    }

    fn perform(&mut self, lent: Tables, call: &Call) -> Option<Answer> {
        let (record, marks) = (&mut self.record[..], &mut self.marks[..]);
        let operation = &mut self.operation;
        Some(match call {
            Call::Open(numbers) => open(lent, numbers, record, marks, operation),
            Call::Read(variable) => begin_read(lent, record, marks, operation, *variable),
            Call::Write(variable, value) => {
                begin_write(lent, record, marks, operation, *variable, *value)
            }
            Call::Confirm(number) => confirm(lent, record, marks, operation, *number),
            Call::Abandon => abandon(lent, record, marks, operation),
            Call::Hold(held) => {
                *operation = *held;
                return None;
            }
            _ => return None,
        })
    }
}

fn cut(description: &Description, numbers: &[u32]) -> Vec<u32> {
    let registers = description.registers.iter().zip(numbers);
    registers
        .map(|(register, number)| register.cut(*number))
        .collect()
}

/// The call without any bit above a width.
fn cut_call(description: &Description, operation: Operation, call: &Call) -> Call {
    match (call, read_next(description, operation)) {
        (Call::Open(numbers), _) => Call::Open(cut(description, numbers)),
        (Call::Confirm(number), Some(register)) => {
            Call::Confirm(description.registers[register].cut(*number))
        }
        (Call::Confirm(_), None) => Call::Confirm(0),
        _ => call.clone(),
    }
}

/// "In any number lent, confirmed or kept for a register, bits above its width count as 0": a station
/// whose caller sets such bits, in the power-on list, the confirmations and the record that it keeps,
/// answers and is left as one whose caller never does.
#[test]
fn bits_above_the_width_count_as_0() {
    let mut random = Random::new(12);
    let mut seen = Seen::new();
    let mut total = 0;
    for _ in 0..150 {
        let text = valid(&mut random);
        let Verdict::Accepted { description } = load(&text) else {
            panic!("a valid text is accepted");
        };
        let (parameters, registers, variables) = tables(&description);
        let lent = Tables {
            parameters: &parameters,
            registers: &registers,
            variables: &variables,
        };
        let (mut clean, mut noisy) = (Kept::new(&description), Kept::new(&description));
        for call in run(&mut random, &text, 60) {
            for (register, number) in description.registers.iter().zip(&mut noisy.record) {
                *number = bits_above(&mut random, register.width, register.cut(*number));
            }
            let kept = noisy.record.clone();
            let want = clean.perform(lent, &cut_call(&description, clean.operation, &call));
            let got = noisy.perform(lent, &call);
            assert_eq!(got, want, "{call}");
            assert_eq!(cut(&description, &noisy.record), clean.record, "{call}");
            if got == Some(Answer::Opened) {
                assert_eq!(noisy.record, clean.record, "what an opening keeps");
            }
            assert_eq!(
                (&noisy.marks, noisy.operation),
                (&clean.marks, clean.operation)
            );
            total += 1;
            if let Some(Answer::Offer(access)) = got {
                let written = access.direction == Part::Write;
                if written && kept != clean.record {
                    *seen
                        .entry("offered with bits above in the record")
                        .or_insert(0) += 1;
                }
            }
        }
    }
    require(&seen, total, &["offered with bits above in the record"]);
}
