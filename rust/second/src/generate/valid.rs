//! Valid descriptions of every size up to the limits.
//!
//! Variables are dealt out first, over registers whose bits are all free; the masks follow from
//! what was taken, so that every dot bit is mapped and nothing else is. In every other description
//! a register with both parts has one mask for both.

use std::collections::HashSet;

use super::source::{
    number, AttributeSource, KindSource, ListSource, ObjectSource, ParameterSource, PieceSource,
    PortSource, RegisterSource, VariableSource,
};
use super::{Random, Source, Style};
use crate::description::{all_bits, Part, PARTS, WIDTHS};
use crate::load::TEXT_BYTES;
use crate::syntax::{DEPTH, NAME_BYTES, PARAMETERS, PIECES, RANGES, REGISTERS, VARIABLES};
use crate::token::RESERVED;

/// How large a description is to be. The variables may come to fewer, where the bits run out.
#[derive(Clone, Copy, Debug)]
pub struct Shape {
    pub parameters: usize,
    pub ranges: usize,
    pub registers: usize,
    pub variables: usize,
    pub name_bytes: usize,
    /// Whether parameters may be wider than 8.
    pub wide: bool,
    pub style: Style,
}

impl Shape {
    /// Mostly small, sometimes at one limit, sometimes at several.
    pub fn any(random: &mut Random) -> Shape {
        let style = *random.pick(&[Style::Tight, Style::Plain, Style::Wild]);
        let mut shape = Shape {
            parameters: random.between(1, 3),
            ranges: random.between(1, 3),
            registers: random.between(1, 5),
            variables: random.between(0, 8),
            name_bytes: random.between(1, 8),
            wide: random.one_in(2),
            style,
        };
        match random.below(12) {
            0 => shape.parameters = PARAMETERS,
            1 => shape.ranges = RANGES,
            2 => shape.registers = REGISTERS,
            3 => {
                shape.registers = random.between(16, 40);
                shape.variables = VARIABLES;
            }
            4 => shape.name_bytes = NAME_BYTES,
            5 => {
                shape = Shape {
                    parameters: random.between(1, PARAMETERS),
                    ranges: random.between(1, RANGES),
                    registers: random.between(1, REGISTERS),
                    variables: random.between(0, VARIABLES),
                    name_bytes: random.between(1, 12),
                    ..shape
                }
            }
            6 => {
                shape = Shape {
                    parameters: PARAMETERS,
                    ranges: 1,
                    registers: REGISTERS,
                    variables: VARIABLES,
                    name_bytes: 3,
                    wide: false,
                    style: Style::Tight,
                }
            }
            _ => {}
        }
        shape
    }
}

/// A valid text, of 8,192 bytes at most; now and then it is filled up to exactly that.
pub fn valid(random: &mut Random) -> Vec<u8> {
    let mut shape = Shape::any(random);
    loop {
        let source = source(random, shape);
        let mut text = source.text(random, shape.style);
        if text.len() <= TEXT_BYTES {
            if random.one_in(40) {
                let filler = *random.pick(b" \n\t");
                text.resize(TEXT_BYTES, filler);
            }
            return text;
        }
        if shape.style == Style::Wild {
            shape.style = Style::Tight;
        } else {
            shape.name_bytes = shape.name_bytes.min(3);
            shape.registers = (shape.registers * 7 / 8).max(1);
            shape.variables = shape.variables * 7 / 8;
        }
    }
}

struct Register {
    name: String,
    width: u32,
    /// Parameter and offset of each part.
    places: [Option<(usize, u32)>; 2],
    bare: bool,
    /// Bits that its write mask fixes, to tell it from others at its write place.
    told: Told,
}

/// Fixed bits, and those of them that are 1.
#[derive(Clone, Copy, Default)]
struct Told {
    fixed: u32,
    ones: u32,
}

impl Told {
    /// Parts what is told so far by one more bit below the width; its 1 goes to either of the two. `None`
    /// if all bits are fixed.
    fn part(self, random: &mut Random, width: u32) -> Option<(Told, Told)> {
        let free: Vec<u32> = (0..width)
            .map(|bit| 1 << bit)
            .filter(|bit| self.fixed & bit == 0)
            .collect();
        if free.is_empty() {
            return None;
        }
        let bit = *random.pick(&free);
        let zero = Told {
            fixed: self.fixed | bit,
            ones: self.ones,
        };
        let one = Told {
            ones: self.ones | bit,
            ..zero
        };
        Some(if random.one_in(2) {
            (zero, one)
        } else {
            (one, zero)
        })
    }
}

struct Variable {
    name: String,
    lists: Vec<(Option<Part>, Vec<Piece>)>,
    parts: [Option<Vec<Piece>>; 2],
    width: u32,
}

#[derive(Clone, Copy)]
struct Piece {
    register: usize,
    high: u32,
    low: u32,
}

/// Bits of each register.
type Map = [u32; REGISTERS];

fn bits(piece: &Piece) -> u32 {
    all_bits(piece.high + 1) & !all_bits(piece.low)
}

pub fn source(random: &mut Random, shape: Shape) -> Source {
    let mut names = Names::new(shape.name_bytes);
    let device = names.fresh(random);
    let parameters = parameters(random, &mut names, shape);
    let registers = registers(random, &mut names, &parameters, shape);
    let one_mask = random.one_in(2);
    let variables = variables(random, &mut names, &registers, shape, one_mask);

    let mut mapped = [[0; REGISTERS]; 2];
    for variable in &variables {
        for (map, part) in mapped.iter_mut().zip(&variable.parts) {
            for piece in part.iter().flatten() {
                map[piece.register] |= bits(piece);
            }
        }
    }
    let written_registers: Vec<RegisterSource> = registers
        .iter()
        .enumerate()
        .map(|(i, register)| {
            let dots = [mapped[0][i], mapped[1][i]];
            write_register(random, register, dots, &parameters, shape.style, one_mask)
        })
        .collect();
    let written_variables: Vec<(usize, VariableSource)> = variables
        .iter()
        .map(|variable| {
            let last = variable.parts.iter().flatten().flatten();
            let last = last.map(|piece| piece.register).max().unwrap_or(0);
            (
                last,
                write_variable(random, variable, &variables, &registers),
            )
        })
        .collect();
    Source {
        device,
        parameters,
        objects: interleave(random, written_registers, written_variables),
    }
}

/// Names that are told apart and are no reserved words.
struct Names {
    taken: HashSet<String>,
    length: usize,
}

impl Names {
    fn new(length: usize) -> Self {
        Names {
            taken: HashSet::new(),
            length,
        }
    }

    fn fresh(&mut self, random: &mut Random) -> String {
        let mut length = random.between(1, self.length);
        if self.length == NAME_BYTES && random.one_in(2) {
            length = NAME_BYTES;
        }
        loop {
            let name = name(random, length);
            if !RESERVED.contains(&name.as_str()) && self.taken.insert(name.clone()) {
                return name;
            }
            // Short names run out.
            length = (length + 1).min(NAME_BYTES);
        }
    }
}

pub(super) fn name(random: &mut Random, length: usize) -> String {
    const LETTERS: &[u8] = b"abcdefghijklmnopqrstuvwxyzABCDEFGHIJKLMNOPQRSTUVWXYZ";
    const OTHERS: &[u8] = b"abcxyzABCXYZ0123456789_";
    let mut name = vec![*random.pick(LETTERS)];
    name.extend((1..length).map(|_| *random.pick(OTHERS)));
    String::from_utf8(name).expect("letters")
}

fn parameters(random: &mut Random, names: &mut Names, shape: Shape) -> Vec<ParameterSource> {
    let roomy = random.below(shape.parameters);
    (0..shape.parameters)
        .map(|i| {
            let mut ranges: Vec<(u32, u32)> = (0..random.between(1, shape.ranges))
                .map(|_| {
                    let low = random.below(256) as u32;
                    let reach = if random.one_in(2) {
                        0
                    } else {
                        random.below(256)
                    };
                    (low, (low + reach as u32).min(255))
                })
                .collect();
            if shape.ranges == RANGES {
                ranges.resize(RANGES, (0, 0));
            }
            // One parameter has places enough for every register.
            if i == roomy && shape.registers > 2 {
                ranges[0] = (0, random.between(REGISTERS, 255) as u32);
            }
            let bare = random.one_in(4) && !(i == roomy && shape.registers > 2);
            ParameterSource {
                name: names.fresh(random),
                width: if shape.wide { *random.pick(&WIDTHS) } else { 8 },
                ranges: (!bare).then_some(ranges),
            }
        })
        .collect()
}

/// Some offset of a parameter's set.
fn some_offset(random: &mut Random, parameter: &ParameterSource) -> u32 {
    match &parameter.ranges {
        None => 0,
        Some(ranges) => {
            let (low, high) = *random.pick(ranges);
            random.between(low as usize, high as usize) as u32
        }
    }
}

fn registers(
    random: &mut Random,
    names: &mut Names,
    parameters: &[ParameterSource],
    shape: Shape,
) -> Vec<Register> {
    let mut taken: HashSet<(Part, usize, u32)> = HashSet::new();
    let mut registers = Vec::new();
    let mut tries = 0;
    while registers.len() < shape.registers && tries < 40 * shape.registers {
        tries += 1;
        let mut place = || {
            let parameter = random.below(parameters.len());
            (parameter, some_offset(random, &parameters[parameter]))
        };
        let (one, mut other) = (place(), place());
        // Both ports have the register's width.
        let width = parameters[one.0].width;
        if parameters[other.0].width != width {
            other = (one.0, some_offset(random, &parameters[one.0]));
        }
        if random.one_in(6) {
            let read = random.one_in(2).then_some(one);
            if read
                .is_none_or(|(parameter, offset)| !taken.contains(&(Part::Read, parameter, offset)))
            {
                if let Some(register) = beside(random, names, &mut registers, width, read) {
                    taken.extend(read.map(|(parameter, offset)| (Part::Read, parameter, offset)));
                    registers.push(register);
                    continue;
                }
            }
        }
        let (places, bare) = match random.below(8) {
            0..=3 => ([Some(one), Some(one)], true),
            4 => ([Some(one), None], false),
            5 => ([None, Some(one)], false),
            6 => ([Some(one), Some(one)], false),
            _ => ([Some(one), Some(other)], false),
        };
        let free = |(part, place): (Part, Option<(usize, u32)>)| {
            place.is_none_or(|(parameter, offset)| !taken.contains(&(part, parameter, offset)))
        };
        if PARTS.into_iter().zip(places).all(free) {
            for (part, place) in PARTS.into_iter().zip(places) {
                taken.extend(place.map(|(parameter, offset)| (part, parameter, offset)));
            }
            registers.push(Register {
                name: names.fresh(random),
                width,
                places,
                bare,
                told: Told::default(),
            });
        }
    }
    // One place is always free at the start.
    registers
}

/// A register of this width at the write place of an earlier one, told from it by one bit more, and so
/// from all others there.
fn beside(
    random: &mut Random,
    names: &mut Names,
    registers: &mut [Register],
    width: u32,
    read: Option<(usize, u32)>,
) -> Option<Register> {
    let mut writable: Vec<&mut Register> = registers
        .iter_mut()
        .filter(|register| register.width == width && register.places[1].is_some())
        .collect();
    if writable.is_empty() {
        return None;
    }
    let index = random.below(writable.len());
    let earlier = &mut writable[index];
    let (own, told) = earlier.told.part(random, width)?;
    earlier.told = own;
    Some(Register {
        name: names.fresh(random),
        width,
        places: [read, earlier.places[1]],
        bare: false,
        told,
    })
}

/// Deals out bits until there are variables enough, or no more bits to be found.
fn variables(
    random: &mut Random,
    names: &mut Names,
    registers: &[Register],
    shape: Shape,
    one_mask: bool,
) -> Vec<Variable> {
    let mut free: [Map; 2] = [[0; REGISTERS]; 2];
    for (i, register) in registers.iter().enumerate() {
        for (map, place) in free.iter_mut().zip(register.places) {
            map[i] = place.map_or(0, |_| all_bits(register.width));
        }
        free[1][i] &= !register.told.fixed;
    }
    // With many variables to come, none may be too wide.
    let all_bits: u32 = free.iter().flatten().map(|bits| bits.count_ones()).sum();
    let share = (all_bits as usize / (2 * shape.variables.max(1))).max(1);
    let mut variables = Vec::new();
    let mut tries = 0;
    while variables.len() < shape.variables && tries < 8 * shape.variables {
        tries += 1;
        let most = match random.below(4) {
            0 => 1,
            1 => 32,
            2 => 8,
            _ => random.between(1, 32),
        };
        let most = if shape.variables > 16 {
            most.min(share)
        } else {
            most
        };
        let Some((lists, parts)) = bit_lists(random, registers, &free, most as u32) else {
            continue;
        };
        if one_mask && !alike_in_parts(registers, &parts) {
            continue;
        }
        for (map, part) in free.iter_mut().zip(&parts) {
            for piece in part.iter().flatten() {
                map[piece.register] &= !bits(piece);
            }
        }
        let width = |pieces: &Vec<Piece>| pieces.iter().map(|p| p.high - p.low + 1).sum();
        let width = parts.iter().flatten().map(width).next().unwrap_or(0);
        variables.push(Variable {
            name: names.fresh(random),
            lists,
            parts,
            width,
        });
    }
    variables
}

/// Whether the pieces of both parts take the same bits of each register that has both.
fn alike_in_parts(registers: &[Register], parts: &[Option<Vec<Piece>>; 2]) -> bool {
    let taken = |part: usize, register: usize| {
        let pieces = parts[part].iter().flatten();
        let own = pieces.filter(|piece| piece.register == register);
        own.fold(0, |taken, piece| taken | bits(piece))
    };
    (0..registers.len())
        .filter(|register| registers[*register].places.iter().all(Option::is_some))
        .all(|register| taken(0, register) == taken(1, register))
}

type Lists = Vec<(Option<Part>, Vec<Piece>)>;

/// One or two bit lists over free bits, and the parts that they give.
fn bit_lists(
    random: &mut Random,
    registers: &[Register],
    free: &[Map; 2],
    most: u32,
) -> Option<(Lists, [Option<Vec<Piece>>; 2])> {
    let [read, write] = free;
    match random.below(10) {
        0 => {
            let pieces = deal(random, registers, read, most, None)?;
            Some((
                vec![(Some(Part::Read), pieces.clone())],
                [Some(pieces), None],
            ))
        }
        1 => {
            let pieces = deal(random, registers, write, most, None)?;
            Some((
                vec![(Some(Part::Write), pieces.clone())],
                [None, Some(pieces)],
            ))
        }
        2 | 3 => {
            let reading = deal(random, registers, read, most, None)?;
            let width = reading.iter().map(|p| p.high - p.low + 1).sum();
            let writing = deal(random, registers, write, width, Some(width))?;
            let mut lists = vec![
                (Some(Part::Read), reading.clone()),
                (Some(Part::Write), writing.clone()),
            ];
            if random.one_in(2) {
                lists.swap(0, 1);
            }
            Some((lists, [Some(reading), Some(writing)]))
        }
        kind => {
            // A list without modifier: mostly over registers alike, sometimes over a mixture.
            let mut available = [0; REGISTERS];
            for (i, bits) in available.iter_mut().enumerate() {
                *bits = match kind {
                    4 => read[i],
                    5 => write[i],
                    _ => read[i] & write[i],
                };
            }
            let pieces = deal(random, registers, &available, most, None)?;
            let given = |part: usize| {
                let has = |piece: &Piece| registers[piece.register].places[part].is_some();
                pieces.iter().all(has)
            };
            let fits = |map: &Map| {
                pieces
                    .iter()
                    .all(|piece| bits(piece) & !map[piece.register] == 0)
            };
            if (given(0) && !fits(read)) || (given(1) && !fits(write)) {
                return None;
            }
            let parts = [0, 1].map(|part| given(part).then(|| pieces.clone()));
            if parts.iter().all(Option::is_none) {
                return None;
            }
            Some((vec![(None, pieces)], parts))
        }
    }
}

/// Up to eight pieces of available bits, `most` bits or fewer, or exactly so many.
fn deal(
    random: &mut Random,
    registers: &[Register],
    available: &Map,
    most: u32,
    exactly: Option<u32>,
) -> Option<Vec<Piece>> {
    let mut left = *available;
    let mut pieces = Vec::new();
    let mut count = 0;
    let goal = random.between(1, PIECES);
    while count < most && pieces.len() < if exactly.is_some() { PIECES } else { goal } {
        let choices: Vec<usize> = (0..REGISTERS).filter(|i| left[*i] != 0).collect();
        if choices.is_empty() {
            break;
        }
        let again = pieces.last().map(|piece: &Piece| piece.register);
        let register = match again {
            Some(register) if left[register] != 0 && random.one_in(3) => register,
            _ => *random.pick(&choices),
        };
        let width = registers[register].width;
        let set: Vec<u32> = (0..width)
            .filter(|bit| left[register] >> bit & 1 == 1)
            .collect();
        let high = *random.pick(&set);
        let mut low = high;
        let wanted = if random.one_in(4) { 1 } else { most - count };
        while low > 0 && left[register] >> (low - 1) & 1 == 1 && high - low + 1 < wanted {
            low -= 1;
            if exactly.is_none() && random.one_in(8) {
                break;
            }
        }
        let mut piece = Piece {
            register,
            high,
            low,
        };
        if left[register] == all_bits(width) && most - count >= width && random.one_in(2) {
            piece.high = width - 1;
            piece.low = 0;
        }
        left[register] &= !bits(&piece);
        count += piece.high - piece.low + 1;
        pieces.push(piece);
    }
    let good = !pieces.is_empty() && exactly.is_none_or(|width| width == count);
    good.then_some(pieces)
}

fn write_register(
    random: &mut Random,
    register: &Register,
    dots: [u32; 2],
    parameters: &[ParameterSource],
    style: Style,
    one_mask: bool,
) -> RegisterSource {
    let mut port = |modifier, (parameter, offset): (usize, u32)| PortSource {
        modifier,
        parameter: parameters[parameter].name.clone(),
        offset: (offset != 0 || random.one_in(3)).then(|| offset_tokens(random, offset, style)),
    };
    let mut ports = Vec::new();
    if register.bare {
        ports.extend(register.places[0].map(|place| port(None, place)));
    } else {
        ports.extend(register.places[0].map(|place| port(Some(Part::Read), place)));
        ports.extend(register.places[1].map(|place| port(Some(Part::Write), place)));
        if random.one_in(2) {
            ports.reverse();
        }
    }

    let present = register.places.map(|place| place.is_some());
    let mut masks = Vec::new();
    let alike = !present[0] || !present[1] || dots[0] == dots[1];
    let common = if present[0] { dots[0] } else { dots[1] };
    let told = [Told::default(), register.told];
    let width = register.width;
    if alike && common == all_bits(width) && !random.one_in(6) {
        // No mask means a dot for each bit.
    } else if alike && random.one_in(3) {
        masks.push((None, mask(random, width, common, register.told)));
    } else if alike && one_mask && present == [true; 2] {
        let mask = mask(random, width, common, register.told);
        masks.extend(PARTS.map(|part| (Some(part), mask.clone())));
        random.shuffle(&mut masks);
    } else {
        for (i, part) in PARTS.into_iter().enumerate() {
            if present[i] && (dots[i] != all_bits(width) || random.one_in(6)) {
                masks.push((Some(part), mask(random, width, dots[i], told[i])));
            }
        }
        random.shuffle(&mut masks);
    }
    RegisterSource {
        name: register.name.clone(),
        ports,
        masks,
        width,
    }
}

fn mask(random: &mut Random, width: u32, dots: u32, told: Told) -> String {
    (0..width)
        .rev()
        .map(|bit| 1 << bit)
        .map(
            |bit| match (dots & bit, told.fixed & bit, told.ones & bit) {
                (0, 0, _) => *random.pick(&['0', '1', '*']),
                (0, _, 0) => '0',
                (0, _, _) => '1',
                _ => '.',
            },
        )
        .collect()
}

fn write_variable(
    random: &mut Random,
    variable: &Variable,
    variables: &[Variable],
    registers: &[Register],
) -> VariableSource {
    let lists = variable
        .lists
        .iter()
        .map(|(modifier, pieces)| ListSource {
            modifier: *modifier,
            registers: join(random, pieces, registers),
        })
        .collect();

    let alone = |part: usize| {
        variables
            .iter()
            .filter(|other| other.name != variable.name)
            .filter_map(|other| other.parts[part].as_ref())
            .flatten()
            .all(|piece| {
                let mut own = variable.parts[part].iter().flatten();
                own.all(|mine| mine.register != piece.register)
            })
    };
    let trigger =
        [0, 1].map(|part| variable.parts[part].is_some() && alone(part) && random.one_in(3));
    let mut attributes = Vec::new();
    if variable.parts[0].is_some() && random.one_in(4) {
        attributes.push(AttributeSource::Volatile);
    }
    let every_part = (0..2).all(|part| variable.parts[part].is_none() || trigger[part]);
    if every_part && trigger.contains(&true) && random.one_in(2) {
        attributes.push(AttributeSource::Trigger(None));
    } else {
        for (part, trigger) in PARTS.into_iter().zip(trigger) {
            if trigger {
                attributes.push(AttributeSource::Trigger(Some(part)));
            }
        }
    }
    random.shuffle(&mut attributes);

    let kind = match (variable.width, random.below(3)) {
        (1, 0) => KindSource::Bool,
        (width, 1) => KindSource::Signed(width),
        (width, _) => KindSource::Int(width),
    };
    VariableSource {
        name: variable.name.clone(),
        lists,
        attributes,
        kind,
    }
}

/// Pieces as they are written: a whole register without brackets, and pieces of one register that
/// follow each other joined or in one pair of brackets.
fn join(random: &mut Random, pieces: &[Piece], registers: &[Register]) -> Vec<PieceSource> {
    let mut joined: Vec<PieceSource> = Vec::new();
    let mut before = None;
    for piece in pieces {
        let range = (piece.high, piece.low);
        let whole = (registers[piece.register].width - 1, 0);
        let name = registers[piece.register].name.clone();
        match joined.last_mut() {
            Some((_, Some(ranges))) if before == Some(piece.register) && !random.one_in(3) => {
                ranges.push(range);
            }
            _ if range == whole && !random.one_in(4) => joined.push((name, None)),
            _ => joined.push((name, Some(vec![range]))),
        }
        before = Some(piece.register);
    }
    joined
}

/// The registers in their order, and each variable somewhere after its registers.
fn interleave(
    random: &mut Random,
    registers: Vec<RegisterSource>,
    mut variables: Vec<(usize, VariableSource)>,
) -> Vec<ObjectSource> {
    random.shuffle(&mut variables);
    let mixed = random.one_in(2);
    let mut objects = Vec::new();
    for (i, register) in registers.into_iter().enumerate() {
        objects.push(ObjectSource::Register(register));
        if mixed {
            let (now, later): (Vec<_>, Vec<_>) = variables
                .into_iter()
                .partition(|(last, _)| *last <= i && random.one_in(2));
            objects.extend(now.into_iter().map(|(_, v)| ObjectSource::Variable(v)));
            variables = later;
        }
    }
    objects.extend(
        variables
            .into_iter()
            .map(|(_, v)| ObjectSource::Variable(v)),
    );
    objects
}

/// An expression with this value.
pub(super) fn offset_tokens(random: &mut Random, value: u32, style: Style) -> Vec<String> {
    let mut tokens = Expression { random, style };
    match tokens.random.below(8) {
        0..=3 => vec![number(tokens.random, style, value)],
        4 => tokens.nested(value, DEPTH),
        _ => {
            let depth = tokens.random.below(DEPTH + 1);
            tokens.sum(i64::from(value), depth, 6)
        }
    }
}

struct Expression<'r> {
    random: &'r mut Random,
    style: Style,
}

/// Values stay far from the bounds.
const FAR: i64 = 1_000_000;

impl Expression<'_> {
    fn literal(&mut self, value: i64) -> Vec<String> {
        vec![number(self.random, self.style, value as u32)]
    }

    /// A number in exactly so many parentheses and minuses, the minuses even in number.
    fn nested(&mut self, value: u32, depth: usize) -> Vec<String> {
        let mut tokens = vec![number(self.random, self.style, value)];
        let mut left = depth;
        while left > 0 {
            if left >= 2 && self.random.one_in(3) {
                tokens.insert(0, "-".to_string());
                tokens.insert(0, "-".to_string());
                left -= 2;
            } else {
                tokens.insert(0, "(".to_string());
                tokens.push(")".to_string());
                left -= 1;
            }
        }
        tokens
    }

    fn sum(&mut self, value: i64, depth: usize, fuel: usize) -> Vec<String> {
        if depth == 0 && value < 0 {
            let start = self.random.below(9) as i64;
            let mut tokens = self.literal(start);
            tokens.push("-".to_string());
            tokens.extend(self.literal(start - value));
            return tokens;
        }
        if depth == 0 || fuel == 0 || self.random.one_in(3) {
            return self.product(value, depth, fuel);
        }
        let step = self.random.below(300) as i64;
        let (sign, rest) = if self.random.one_in(2) {
            ("+", value - step)
        } else {
            ("-", value + step)
        };
        let mut tokens = self.sum(rest, depth, fuel - 1);
        tokens.push(sign.to_string());
        tokens.extend(self.product(step, depth, fuel - 1));
        tokens
    }

    fn product(&mut self, value: i64, depth: usize, fuel: usize) -> Vec<String> {
        if depth == 0 || fuel == 0 || value.abs() > FAR {
            return self.operand(value, depth, fuel);
        }
        let by = self.random.between(1, 9) as i64 * if self.random.one_in(4) { -1 } else { 1 };
        let rest = self.random.below(by.unsigned_abs() as usize) as i64;
        let away_from_zero = if value * by < 0 { -rest } else { rest };
        let (left, sign, right) = match self.random.below(6) {
            0 if value % by == 0 => (value / by, "*", by),
            1 if value != 0 => (value * by + away_from_zero, "/", by),
            2 if value >= 0 => (value + (value + 1) * rest, "%", value + 1),
            3 if value < 0 => (value + (value - 1) * rest, "%", 1 - value),
            _ => return self.operand(value, depth, fuel),
        };
        let mut tokens = self.product(left, depth, fuel - 1);
        tokens.push(sign.to_string());
        tokens.extend(self.operand(right, depth, fuel - 1));
        tokens
    }

    /// With no depth left the value is not negative.
    fn operand(&mut self, value: i64, depth: usize, fuel: usize) -> Vec<String> {
        if depth == 0 || (value >= 0 && !self.random.one_in(4)) {
            return self.literal(value);
        }
        if value < 0 && self.random.one_in(2) {
            let mut tokens = vec!["-".to_string()];
            tokens.extend(self.operand(-value, depth - 1, fuel.saturating_sub(1)));
            return tokens;
        }
        let mut tokens = vec!["(".to_string()];
        tokens.extend(self.sum(value, depth - 1, fuel.saturating_sub(1)));
        tokens.push(")".to_string());
        tokens
    }
}
