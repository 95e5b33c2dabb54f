//! Texts that break one rule on purpose, and texts damaged without a plan.

use std::collections::BTreeMap;

use super::source::{
    AttributeSource, KindSource, ListSource, ObjectSource, PortSource, RegisterSource,
    VariableSource,
};
use super::valid::{name, offset_tokens};
use super::{source, spell, valid, Random, Shape, Source, Style};
use crate::description::{Part, WIDTHS};
use crate::load::TEXT_BYTES;
use crate::syntax::{DEPTH, NAME_BYTES, PARAMETERS, PIECES, RANGES, REGISTERS, VARIABLES};
use crate::token::{scan, Token, RESERVED};

/// A text that breaks this rule, as far as the description drawn for it allows: a few come out
/// whole, or break another one first.
pub fn broken(random: &mut Random, rule: u8) -> Vec<u8> {
    if rule == 2 {
        let mut text = valid(random);
        let over = random.between(1, 20);
        text.resize(TEXT_BYTES + over, b' ');
        return text;
    }
    let shape = Shape {
        parameters: random.between(1, 4),
        ranges: random.between(1, 3),
        registers: random.between(2, 9),
        variables: random.between(2, 12),
        name_bytes: random.between(1, 6),
        wide: random.one_in(2),
        style: *random.pick(&[Style::Tight, Style::Plain, Style::Wild]),
    };
    let mut source = source(random, shape);
    let style = shape.style;
    match rule {
        3 => {
            let text = source.text(random, style);
            return bad_token(random, text);
        }
        4 => {
            let tokens = source.tokens(random, style);
            return other_tokens(random, tokens, style);
        }
        5 => over_size(random, &mut source),
        6 => declared_twice(random, &mut source),
        7 => wrong_name(random, &mut source),
        8 => wrong_offset(random, &mut source),
        9 => wrong_ports(random, &mut source),
        10 => match random.one_in(3) {
            true => same_place(random, &mut source),
            false => beside(random, &mut source),
        },
        11 => wrong_bits(random, &mut source),
        12 => wrong_width(random, &mut source),
        13 => wrong_attributes(random, &mut source),
        14 => mapped_twice(random, &mut source),
        15 => shared_trigger(random, &mut source),
        _ => unmapped(random, &mut source),
    }
    source.text(random, style)
}

fn some_register<'s>(
    random: &mut Random,
    source: &'s mut Source,
) -> Option<&'s mut RegisterSource> {
    let mut registers: Vec<_> = source
        .objects
        .iter_mut()
        .filter_map(|object| match object {
            ObjectSource::Register(register) => Some(register),
            ObjectSource::Variable(_) => None,
        })
        .collect();
    if registers.is_empty() {
        return None;
    }
    let index = random.below(registers.len());
    Some(registers.swap_remove(index))
}

fn some_variable<'s>(
    random: &mut Random,
    source: &'s mut Source,
) -> Option<&'s mut VariableSource> {
    let mut variables: Vec<_> = source
        .objects
        .iter_mut()
        .filter_map(|object| match object {
            ObjectSource::Variable(variable) => Some(variable),
            ObjectSource::Register(_) => None,
        })
        .collect();
    if variables.is_empty() {
        return None;
    }
    let index = random.below(variables.len());
    Some(variables.swap_remove(index))
}

fn some_list<'v>(random: &mut Random, variable: &'v mut VariableSource) -> &'v mut ListSource {
    let index = random.below(variable.lists.len());
    &mut variable.lists[index]
}

/// All names in order of declaration.
fn names(source: &Source) -> Vec<String> {
    let mut names = vec![source.device.clone()];
    names.extend(
        source
            .parameters
            .iter()
            .map(|parameter| parameter.name.clone()),
    );
    names.extend(source.objects.iter().map(|object| match object {
        ObjectSource::Register(register) => register.name.clone(),
        ObjectSource::Variable(variable) => variable.name.clone(),
    }));
    names
}

fn bad_token(random: &mut Random, mut text: Vec<u8>) -> Vec<u8> {
    let at = random.below(text.len() + 1);
    let bad: &[u8] = match random.below(10) {
        0 => b"$",
        1 => b"\r",
        2 => b"\0",
        3 => b" & ",
        4 => b" | ",
        5 => b"/*/",
        6 => b"'",
        7 => b"''",
        8 => b" 2147483648 ",
        _ => b"'01 '",
    };
    let bytes = if random.one_in(10) {
        vec![random.between(127, 255) as u8]
    } else {
        bad.to_vec()
    };
    text.splice(at..at, bytes);
    text
}

const SIGNS: [&str; 33] = [
    "{",
    "}",
    "[",
    "]",
    "(",
    ")",
    ":",
    ",",
    ";",
    "=",
    "@",
    "..",
    ".",
    "=>",
    "<=",
    "<=>",
    "#",
    "+",
    "-",
    "*",
    "/",
    "%",
    "==",
    "!=",
    "<",
    ">",
    ">=",
    "&&",
    "||",
    "!",
    "0",
    "7",
    "'........'",
];

/// One token left out, doubled, put elsewhere, exchanged, or another one put in.
fn other_tokens(random: &mut Random, mut tokens: Vec<String>, style: Style) -> Vec<u8> {
    let other = |random: &mut Random| match random.below(4) {
        0 => random.pick(&RESERVED).to_string(),
        1 => name(random, 3),
        _ => random.pick(&SIGNS).to_string(),
    };
    let at = random.below(tokens.len());
    match random.below(6) {
        0 => {
            tokens.remove(at);
        }
        1 => {
            let token = tokens[at].clone();
            tokens.insert(at, token);
        }
        2 => {
            let to = random.below(tokens.len());
            tokens.swap(at, to);
        }
        3 => tokens[at] = other(random),
        4 => {
            let token = other(random);
            tokens.insert(at, token);
        }
        _ => tokens.truncate(at),
    }
    spell(&tokens, random, style)
}

fn over_size(random: &mut Random, source: &mut Source) {
    match random.below(8) {
        0 => {
            let long = name(random, NAME_BYTES + 1);
            match random.below(5) {
                0 => source.device = long,
                1 => source.parameters[0].name = long,
                2 => {
                    if let Some(register) = some_register(random, source) {
                        register.name = long;
                    }
                }
                3 => {
                    if let Some(register) = some_register(random, source) {
                        register.ports[0].parameter = long;
                    }
                }
                _ => {
                    if let Some(variable) = some_variable(random, source) {
                        some_list(random, variable).registers[0].0 = long;
                    }
                }
            }
        }
        1 => {
            while source.parameters.len() < PARAMETERS + 1 {
                let mut parameter = source.parameters[0].clone();
                parameter.name += &format!("_{}", source.parameters.len());
                parameter.name.truncate(NAME_BYTES);
                source.parameters.push(parameter);
            }
        }
        2 => {
            let index = random.below(source.parameters.len());
            let count = RANGES + random.below(2);
            source.parameters[index].ranges = Some(vec![(0, 255); count]);
        }
        3 => {
            let count = REGISTERS + random.below(2);
            let have = source.registers().count();
            for i in have..count {
                let parameter = source.parameters[0].name.clone();
                let width = source.parameters[0].width;
                source.objects.push(ObjectSource::Register(RegisterSource {
                    name: format!("extra_{i}"),
                    ports: vec![PortSource {
                        modifier: None,
                        parameter,
                        offset: None,
                    }],
                    masks: Vec::new(),
                    width,
                }));
            }
        }
        4 => {
            let have = source.variables().count();
            for i in have..VARIABLES + 1 {
                let register = source
                    .registers()
                    .next()
                    .map(|register| register.name.clone());
                source.objects.push(ObjectSource::Variable(VariableSource {
                    name: format!("w{i}"),
                    lists: vec![ListSource {
                        modifier: None,
                        registers: vec![(register.unwrap_or_default(), None)],
                    }],
                    attributes: Vec::new(),
                    kind: KindSource::Int(8),
                }));
            }
        }
        5 | 6 => {
            if let Some(variable) = some_variable(random, source) {
                let list = some_list(random, variable);
                let index = random.below(list.registers.len());
                if random.one_in(2) {
                    list.registers[index].1 = Some(vec![(0, 0); PIECES + 1]);
                } else {
                    let extra = list.registers[index].clone();
                    list.registers.resize(PIECES + 1, extra);
                }
            }
        }
        _ => {
            if let Some(register) = some_register(random, source) {
                let index = random.below(register.ports.len());
                let mut tokens: Vec<String> = Vec::new();
                for _ in 0..DEPTH + 1 {
                    tokens.push(random.pick(&["(", "-"]).to_string());
                }
                let open = tokens.iter().filter(|token| *token == "(").count();
                tokens.push("0".to_string());
                tokens.extend(vec![")".to_string(); open]);
                register.ports[index].offset = Some(tokens);
            }
        }
    }
}

fn declared_twice(random: &mut Random, source: &mut Source) {
    let names = names(source);
    let later = random.between(1, names.len() - 1);
    let name = names[random.below(later)].clone();
    if later <= source.parameters.len() {
        source.parameters[later - 1].name = name;
        return;
    }
    match &mut source.objects[later - 1 - source.parameters.len()] {
        ObjectSource::Register(register) => register.name = name,
        ObjectSource::Variable(variable) => variable.name = name,
    }
}

fn wrong_name(random: &mut Random, source: &mut Source) {
    let names = names(source);
    let wrong = if random.one_in(3) {
        "undeclared".to_string()
    } else {
        random.pick(&names).clone()
    };
    if random.one_in(2) {
        if let Some(register) = some_register(random, source) {
            let index = random.below(register.ports.len());
            register.ports[index].parameter = wrong;
        }
    } else if let Some(variable) = some_variable(random, source) {
        let list = some_list(random, variable);
        let index = random.below(list.registers.len());
        list.registers[index].0 = wrong;
    }
}

fn wrong_offset(random: &mut Random, source: &mut Source) {
    if random.one_in(3) {
        let index = random.below(source.parameters.len());
        let ranges = source.parameters[index].ranges.get_or_insert(vec![(0, 0)]);
        let at = random.below(ranges.len());
        ranges[at] = *random.pick(&[
            (0, 256),
            (256, 256),
            (1, 0),
            (255, 254),
            (300, 2),
            (0, 2_147_483_647),
        ]);
        return;
    }
    let set = source.parameters.clone();
    let Some(register) = some_register(random, source) else {
        return;
    };
    let index = random.below(register.ports.len());
    let port = &mut register.ports[index];
    let faulty = [
        "7/0",
        "7%0",
        "1/(2-2)",
        "0*(1/0)",
        "65536*65536",
        "2147483647+1",
        "-1",
        "256",
        "0-1",
        "-2147483647-2",
        "(-2147483647-1)/-1",
        "-(-2147483647-1)",
        "(-2147483647-1)%-1",
    ];
    let has_zero = |name: &str| {
        set.iter().any(|parameter| {
            let ranges = parameter.ranges.as_deref().unwrap_or(&[(0, 0)]);
            parameter.name == name && ranges.iter().any(|(low, _)| *low == 0)
        })
    };
    port.offset = if !has_zero(&port.parameter) && random.one_in(2) {
        None
    } else if random.one_in(3) {
        let value = random.below(256) as u32;
        Some(offset_tokens(random, value, Style::Wild))
    } else {
        let faulty: &str = random.pick::<&str>(&faulty);
        Some(split(faulty))
    };
}

/// The tokens of a piece of text.
fn split(text: &str) -> Vec<String> {
    let mut tokens = Vec::new();
    let mut at = 0;
    while let Ok(lexeme) = scan(text.as_bytes(), at) {
        if lexeme.token == Token::End {
            break;
        }
        tokens.push(text[lexeme.place..lexeme.end].to_string());
        at = lexeme.end;
    }
    tokens
}

fn some_modifier(random: &mut Random) -> Option<Part> {
    *random.pick(&[None, Some(Part::Read), Some(Part::Write)])
}

fn wrong_ports(random: &mut Random, source: &mut Source) {
    let Some(register) = some_register(random, source) else {
        return;
    };
    match random.below(5) {
        0 => {
            let mut port = register.ports[0].clone();
            port.modifier = some_modifier(random);
            register.ports.truncate(1);
            register.ports.push(port);
        }
        1 => {
            let index = random.below(register.ports.len());
            register.ports[index].modifier = some_modifier(random);
        }
        2 => {
            let width = register.width as usize;
            let length = *random.pick(&[1, 8, 16, 32, width - 1, width - 1, width + 1, width + 1]);
            let mask = (0..length)
                .map(|_| *random.pick(&['.', '0', '1', '*']))
                .collect();
            register.masks.truncate(1);
            register.masks.push((some_modifier(random), mask));
        }
        3 => {
            let mask = match register.masks.first() {
                Some((_, mask)) => mask.clone(),
                None => dots(register),
            };
            register.masks.push((some_modifier(random), mask));
        }
        _ => {
            let mask = match register.masks.first_mut() {
                Some((_, mask)) => mask,
                None => {
                    register.masks.push((None, dots(register)));
                    &mut register.masks[0].1
                }
            };
            match random.one_in(2) {
                true => drop(mask.pop()),
                false => mask.push('.'),
            }
        }
    }
}

/// A dot for each bit of the register.
fn dots(register: &RegisterSource) -> String {
    ".".repeat(register.width as usize)
}

fn same_place(random: &mut Random, source: &mut Source) {
    let Some(port) = some_register(random, source).map(|register| register.ports[0].clone()) else {
        return;
    };
    if let Some(register) = some_register(random, source) {
        let index = random.below(register.ports.len());
        register.ports[index].parameter = port.parameter;
        register.ports[index].offset = port.offset;
    }
}

/// One more register at a place of another, with a mask that mostly has no bit to tell the two
/// apart; between read parts such a bit would not help.
fn beside(random: &mut Random, source: &mut Source) {
    let Some(register) = some_register(random, source) else {
        return;
    };
    let mut port = random.pick(&register.ports).clone();
    let part = port.modifier.unwrap_or(match random.one_in(4) {
        true => Part::Read,
        false => Part::Write,
    });
    port.modifier = Some(part);
    let written = register
        .masks
        .iter()
        .find(|(modifier, _)| modifier.is_none_or(|of| of == part));
    let mut mask: Vec<char> = written
        .map_or(dots(register), |(_, mask)| mask.clone())
        .chars()
        .map(|element| match element {
            '0' | '1' if !random.one_in(4) => element,
            '0' | '1' => '*',
            _ => *random.pick(&['0', '1', '*']),
        })
        .collect();
    if part == Part::Read || random.one_in(8) {
        for element in &mut mask {
            *element = match *element {
                '0' => '1',
                '1' => '0',
                other => other,
            };
        }
    }
    let masks = vec![(None, mask.into_iter().collect())];
    let beside = ObjectSource::Register(RegisterSource {
        name: "beside_it".to_string(),
        ports: vec![port],
        masks,
        width: register.width,
    });
    let at = match random.one_in(2) {
        true => random.below(source.objects.len()),
        false => source.objects.len(),
    };
    source.objects.insert(at, beside);
}

fn wrong_bits(random: &mut Random, source: &mut Source) {
    let widths = widths(source);
    let all: Vec<String> = widths.keys().cloned().collect();
    match random.below(9) {
        0 => {
            // A mapped bit is no dot any more.
            if let Some(register) = some_register(random, source) {
                let bit = random.below(register.width as usize);
                let fixed = *random.pick(&["0", "1", "*"]);
                if register.masks.is_empty() {
                    register.masks.push((None, dots(register)));
                }
                register.masks[0].1.replace_range(bit..bit + 1, fixed);
            }
            return;
        }
        1 => {
            // A register loses a part.
            if let Some(register) = some_register(random, source) {
                register.ports.truncate(1);
                register.ports[0].modifier = some_modifier(random);
                register.masks.truncate(1);
            }
            return;
        }
        _ => {}
    }
    let Some(variable) = some_variable(random, source) else {
        return;
    };
    match random.below(9) {
        0..=3 => {
            // Over the width, or rising.
            let list = some_list(random, variable);
            let index = random.below(list.registers.len());
            let (register, ranges) = &mut list.registers[index];
            let width = widths[register];
            let ranges = ranges.get_or_insert(vec![(width - 1, 0)]);
            let at = random.below(ranges.len());
            ranges[at] = *random.pick(&[
                (width, width),
                (width, 0),
                (width, width - 1),
                (32, 32),
                (2_147_483_647, 0),
                (width + 1, width + 2),
                (0, width - 1),
                (3, 4),
            ]);
        }
        4 => {
            let list = some_list(random, variable);
            let again = random.pick(&list.registers).clone();
            list.registers.push(again);
        }
        5 => {
            let list = some_list(random, variable);
            list.registers.push((random.pick(&all).clone(), None));
        }
        6 => {
            let mut list = variable.lists[0].clone();
            list.modifier = some_modifier(random);
            variable.lists.truncate(1);
            variable.lists.push(list);
        }
        7 => some_list(random, variable).modifier = some_modifier(random),
        _ => {
            // More than 32 bits, if there are registers enough.
            let list = some_list(random, variable);
            list.registers = all
                .iter()
                .take(PIECES)
                .map(|name| (name.clone(), None))
                .collect();
        }
    }
}

/// The width of each register, by its name.
fn widths(source: &Source) -> BTreeMap<String, u32> {
    let registers = source.registers();
    registers
        .map(|register| (register.name.clone(), register.width))
        .collect()
}

/// Widths that no port has.
const NO_WIDTHS: [u32; 11] = [0, 1, 7, 9, 12, 15, 17, 24, 31, 33, 64];

fn wrong_width(random: &mut Random, source: &mut Source) {
    match random.below(4) {
        0 => {
            let index = random.below(source.parameters.len());
            source.parameters[index].width = *random.pick(&NO_WIDTHS);
        }
        1 => {
            if let Some(register) = some_register(random, source) {
                restate(register, *random.pick(&NO_WIDTHS));
            }
        }
        2 => match random.one_in(3) {
            true => {
                let index = random.below(source.parameters.len());
                source.parameters[index].width = *random.pick(&WIDTHS);
            }
            false => {
                if let Some(register) = some_register(random, source) {
                    restate(register, *random.pick(&WIDTHS));
                }
            }
        },
        _ => {
            if let Some(variable) = some_variable(random, source) {
                variable.kind = match (variable.kind, random.below(4)) {
                    (KindSource::Int(_), 0) => KindSource::Bool,
                    (KindSource::Int(width), 1) => KindSource::Int(width - 1),
                    (KindSource::Int(width), _) => KindSource::Int(width + 1),
                    (KindSource::Signed(width), _) => KindSource::Signed(width + 1),
                    (KindSource::Bool, _) => KindSource::Int(2),
                };
            }
        }
    }
}

/// States another width for a register, and makes its masks as long: another length would be told first.
fn restate(register: &mut RegisterSource, width: u32) {
    register.width = width;
    for (_, mask) in &mut register.masks {
        let elements = mask.chars().chain(std::iter::repeat('*'));
        *mask = elements.take(width.max(1) as usize).collect();
    }
}

fn wrong_attributes(random: &mut Random, source: &mut Source) {
    let Some(variable) = some_variable(random, source) else {
        return;
    };
    let attribute = |random: &mut Random| match random.below(4) {
        0 => AttributeSource::Volatile,
        1 => AttributeSource::Trigger(None),
        _ => AttributeSource::Trigger(some_modifier(random)),
    };
    let one = attribute(random);
    variable.attributes.push(one);
    if random.one_in(2) {
        let other = if random.one_in(2) {
            one
        } else {
            attribute(random)
        };
        variable.attributes.push(other);
    }
}

/// One more variable, over a bit that another has.
fn mapped_twice(random: &mut Random, source: &mut Source) {
    let Some(list) =
        some_variable(random, source).map(|variable| some_list(random, variable).clone())
    else {
        return;
    };
    let (register, ranges) = random.pick(&list.registers).clone();
    let whole = (widths(source)[&register] - 1, 0);
    let (high, _) = ranges.map_or(whole, |ranges| *random.pick(&ranges));
    let modifier = list.modifier.or(some_modifier(random));
    let at = random.between(1, source.objects.len());
    source.objects.insert(
        if random.one_in(2) {
            at
        } else {
            source.objects.len()
        },
        ObjectSource::Variable(VariableSource {
            name: "once_more".to_string(),
            lists: vec![ListSource {
                modifier,
                registers: vec![(register, Some(vec![(high, high)]))],
            }],
            attributes: Vec::new(),
            kind: KindSource::Bool,
        }),
    );
}

/// A trigger for one that may share a register.
fn shared_trigger(random: &mut Random, source: &mut Source) {
    for _ in 0..random.between(1, 3) {
        if let Some(variable) = some_variable(random, source) {
            let modifier = match variable.lists[..] {
                [ListSource {
                    modifier: Some(part),
                    ..
                }] => Some(part),
                _ => some_modifier(random),
            };
            variable
                .attributes
                .retain(|attribute| *attribute == AttributeSource::Volatile);
            variable.attributes.push(AttributeSource::Trigger(modifier));
        }
    }
}

fn unmapped(random: &mut Random, source: &mut Source) {
    match random.below(3) {
        0 => {
            let variables: Vec<usize> = (0..source.objects.len())
                .filter(|i| matches!(source.objects[*i], ObjectSource::Variable(_)))
                .collect();
            if !variables.is_empty() {
                source.objects.remove(*random.pick(&variables));
            }
        }
        1 => {
            if let Some(register) = some_register(random, source) {
                register.masks.clear();
            }
        }
        _ => {
            if let Some(register) = some_register(random, source) {
                if let Some((_, mask)) = register.masks.first_mut() {
                    let bit = random.below(mask.len());
                    mask.replace_range(bit..bit + 1, ".");
                }
            }
        }
    }
}

/// A valid text with a few bytes or tokens changed.
pub fn damaged(random: &mut Random) -> Vec<u8> {
    let mut text = valid(random);
    if text.len() > 400 && random.one_in(2) {
        // Damage in long texts is mostly found at once; short ones are cheaper.
        text = valid(random);
    }
    for _ in 0..random.between(1, 3) {
        let at = random.below(text.len() + 1);
        match random.below(9) {
            0 => text.truncate(at),
            1 => {
                if at < text.len() {
                    text[at] ^= 1 << random.below(8);
                }
            }
            2 => {
                if at < text.len() {
                    text.remove(at);
                }
            }
            3 => text.insert(at, random.byte()),
            4 => text.insert(at, *random.pick(b" \n\t/*'.=-()[]{},;:@#01aZ_")),
            5 => {
                // A stretch comes twice.
                let end = (at + random.below(40)).min(text.len());
                let stretch = text[at.min(end)..end].to_vec();
                text.splice(end..end, stretch);
            }
            6 => {
                // A stretch is lost.
                let end = (at + random.below(40)).min(text.len());
                text.drain(at.min(end)..end);
            }
            7 => {
                if at < text.len() {
                    text[at] = *random.pick(b"0123456789");
                }
            }
            _ => {
                // A token becomes another of the same text.
                let text_tokens = tokens(&text);
                if !text_tokens.is_empty() {
                    let (start, end) = *random.pick(&text_tokens);
                    let (from, to) = *random.pick(&text_tokens);
                    let token = text[from..to].to_vec();
                    text.splice(start..end, token);
                }
            }
        }
    }
    text
}

/// Where the tokens of a text stand, up to the first bad one.
fn tokens(text: &[u8]) -> Vec<(usize, usize)> {
    let mut tokens = Vec::new();
    let mut at = 0;
    while let Ok(lexeme) = scan(text, at) {
        if lexeme.token == Token::End {
            break;
        }
        tokens.push((lexeme.place, lexeme.end));
        at = lexeme.end;
    }
    tokens
}

/// Bytes of any kind, or of the kinds that tokens are made of, or whole tokens.
pub fn random_bytes(random: &mut Random) -> Vec<u8> {
    let length = random.below(60);
    match random.below(3) {
        0 => (0..length).map(|_| random.byte()).collect(),
        1 => {
            let bytes = b"abdeimnoprstvx0178 \n\t/*'.,;:=-+%()[]{}@#<>!&|_";
            (0..length).map(|_| *random.pick(bytes)).collect()
        }
        _ => {
            let mut tokens: Vec<String> = ["device", "d", "(", "b", ":", "bit", "["]
                .map(String::from)
                .into_iter()
                .take(random.below(8))
                .collect();
            for _ in 0..random.below(20) {
                tokens.push(match random.below(3) {
                    0 => random.pick(&RESERVED).to_string(),
                    _ => random.pick(&SIGNS).to_string(),
                });
            }
            spell(&tokens, random, Style::Plain)
        }
    }
}
