//! The consistency rules 6 to 16 of document 01, over declarations that were read.
//!
//! Each declaration is judged against those before it, lowest number first. Only the first rule
//! broken in the whole text is ever asked for, so judging stops there.

use std::collections::HashMap;

use crate::description::{
    all_bits, Bits, Description, Kind, Mask, Name, OffsetRange, Parameter, Part, Piece, Port,
    Register, Variable, PARTS, WIDTHS,
};
use crate::load::Refusal;
use crate::syntax::{
    Attribute, ListText, ParameterText, PieceText, PortText, Range, RegisterText, TypeText,
    VariableText, PARAMETERS, REGISTERS, VARIABLES,
};

/// What a name was declared as, with its number among those of its kind.
#[derive(Clone, Copy, Debug, PartialEq, Eq)]
enum Entity {
    Device,
    Parameter(usize),
    Register(usize),
    Variable,
}

/// What the variables so far hold of one part of a register.
#[derive(Clone, Copy, Debug, Default)]
struct Held {
    bits: u32,
    trigger: bool,
}

/// The description so far, and what the rules need to remember of it.
pub struct Judge<'t> {
    text: &'t [u8],
    names: HashMap<&'t [u8], Entity>,
    held: [[Held; REGISTERS]; 2],
    description: Description,
}

type Judged<T> = Result<T, Refusal>;

fn refused<T>(number: u8, name: Name) -> Judged<T> {
    Err(Refusal {
        number,
        place: name.place,
    })
}

/// The parts that one or two ports (or bit lists) serve, by their modifiers. `None` is a bad pairing.
enum Pairing {
    /// One without modifier.
    Both,
    One(Part),
    /// One of each; the part is the first one's.
    Each(Part),
}

fn pairing(first: Option<Part>, second: Option<Option<Part>>) -> Option<Pairing> {
    match (first, second) {
        (None, None) => Some(Pairing::Both),
        (Some(part), None) => Some(Pairing::One(part)),
        (Some(one), Some(Some(other))) if one != other => Some(Pairing::Each(one)),
        _ => None,
    }
}

impl<'t> Judge<'t> {
    pub fn new(text: &'t [u8]) -> Self {
        Judge {
            text,
            names: HashMap::with_capacity(1 + PARAMETERS + REGISTERS + VARIABLES),
            held: [[Held::default(); REGISTERS]; 2],
            description: Description::default(),
        }
    }

    /// Rule 6.
    fn declare(&mut self, name: Name, entity: Entity) -> Judged<()> {
        match self.names.insert(name.of(self.text), entity) {
            Some(_) => refused(6, name),
            None => Ok(()),
        }
    }

    pub fn device(&mut self, name: Name) -> Judged<()> {
        self.declare(name, Entity::Device)
    }

    pub fn parameter(&mut self, parameter: ParameterText) -> Judged<()> {
        let name = parameter.name;
        self.declare(name, Entity::Parameter(self.description.parameters.len()))?;
        let ranges = match parameter.ranges {
            None => vec![OffsetRange { low: 0, high: 0 }],
            Some(ranges) => ranges
                .iter()
                .map(|range| OffsetRange {
                    low: range.first,
                    high: range.last,
                })
                .collect(),
        };
        if ranges
            .iter()
            .any(|range| range.low > range.high || range.high > 255)
        {
            return refused(8, name);
        }
        if !WIDTHS.contains(&parameter.width) {
            return refused(12, name);
        }
        self.description.parameters.push(Parameter {
            name,
            width: parameter.width,
            ranges,
        });
        Ok(())
    }

    pub fn register(&mut self, register: RegisterText) -> Judged<()> {
        let name = register.name;
        self.declare(name, Entity::Register(self.description.registers.len()))?;

        let first = self.port_parameter(&register.first)?;
        let second = match &register.second {
            Some(port) => Some(self.port_parameter(port)?),
            None => None,
        };
        let first = self.place(name, &register.first, first)?;
        let second = match (&register.second, second) {
            (Some(port), Some(parameter)) => Some(self.place(name, port, parameter)?),
            _ => None,
        };

        let (read, write) = match pairing(
            register.first.modifier,
            register.second.as_ref().map(|port| port.modifier),
        ) {
            None => return refused(9, name),
            Some(Pairing::Both) => (Some(first), Some(first)),
            Some(Pairing::One(Part::Read)) => (Some(first), None),
            Some(Pairing::One(Part::Write)) => (None, Some(first)),
            Some(Pairing::Each(Part::Read)) => (Some(first), second),
            Some(Pairing::Each(Part::Write)) => (second, Some(first)),
        };
        let Some((read_mask, write_mask)) = masks(&register, read.is_some(), write.is_some())
        else {
            return refused(9, name);
        };
        let port = |place: Option<(usize, u32)>, mask: Mask| {
            place.map(|(parameter, offset)| Port {
                parameter,
                offset,
                mask,
            })
        };
        let judged = Register {
            name,
            width: register.width,
            read: port(read, read_mask),
            write: port(write, write_mask),
        };

        if self.clashes(&judged) {
            return refused(10, name);
        }
        if !self.width_fits(&judged) {
            return refused(12, name);
        }

        self.description.registers.push(judged);
        Ok(())
    }

    /// Rule 12 of a register: its width is that of the parameter of each of its ports, and so one that
    /// parameters have.
    fn width_fits(&self, register: &Register) -> bool {
        let parameters = &self.description.parameters;
        let mut ports = PARTS.into_iter().filter_map(|part| register.part(part));
        ports.all(|port| parameters[port.parameter].width == register.width)
    }

    /// Rule 10: a part's place is that of the same part of an earlier register. Write parts may share
    /// one where their masks tell them apart.
    fn clashes(&self, register: &Register) -> bool {
        let taken = |part: Part, port: &Port| {
            let earlier = self.description.registers.iter();
            earlier
                .filter_map(|other| other.part(part))
                .filter(|other| (other.parameter, other.offset) == (port.parameter, port.offset))
                .any(|other| part == Part::Read || !other.mask.told_from(&port.mask))
        };
        PARTS
            .into_iter()
            .any(|part| register.part(part).is_some_and(|port| taken(part, port)))
    }

    /// Rule 7 of a port: its name is that of an earlier parameter.
    fn port_parameter(&self, port: &PortText) -> Judged<usize> {
        match self.names.get(port.parameter.of(self.text)) {
            Some(Entity::Parameter(index)) => Ok(*index),
            _ => refused(7, port.parameter),
        }
    }

    /// Rule 8 of a port: its offset has a value, and that lies in the parameter's set.
    fn place(&self, name: Name, port: &PortText, parameter: usize) -> Judged<(usize, u32)> {
        let (value, place) = match &port.offset {
            Some(offset) => (offset.value, offset.place),
            None => (Some(0), name.place),
        };
        match value {
            Some(offset) if self.description.parameters[parameter].has_offset(offset) => {
                Ok((parameter, offset as u32))
            }
            _ => Err(Refusal { number: 8, place }),
        }
    }

    pub fn variable(&mut self, variable: VariableText) -> Judged<()> {
        let name = variable.name;
        self.declare(name, Entity::Variable)?;

        let first = self.list_pieces(&variable.first)?;
        let second = match &variable.second {
            Some(list) => Some(self.list_pieces(list)?),
            None => None,
        };

        let modifiers = (
            variable.first.modifier,
            variable.second.as_ref().map(|list| list.modifier),
        );
        let Some([read, write]) = self.parts(modifiers, first, second) else {
            return refused(11, name);
        };
        let Some(widths) = self.widths([&read, &write]) else {
            return refused(11, name);
        };

        let (kind, width) = match variable.kind {
            TypeText::Int(width) => (Kind::Int, width),
            TypeText::SignedInt(width) => (Kind::Signed, width),
            TypeText::Bool => (Kind::Bool, 1),
        };
        if widths.into_iter().flatten().any(|bits| bits != width) {
            return refused(12, name);
        }

        let present = [read.is_some(), write.is_some()];
        let Some(attributes) = attributes(&variable.attributes, present) else {
            return refused(13, name);
        };
        let triggers = [attributes.read_trigger, attributes.write_trigger];

        let parts = || [&read, &write].into_iter().zip(triggers).enumerate();
        for (index, (part, _)) in parts() {
            let overlaps =
                |piece: &Piece| self.held[index][piece.register].bits & taken(piece) != 0;
            if part.iter().flatten().any(overlaps) {
                return refused(14, name);
            }
        }
        for (index, (part, trigger)) in parts() {
            let shares = |piece: &Piece| {
                let held = self.held[index][piece.register];
                held.bits != 0 && (held.trigger || trigger)
            };
            if part.iter().flatten().any(shares) {
                return refused(15, name);
            }
        }
        for (index, (part, trigger)) in parts() {
            for piece in part.iter().flatten() {
                let held = &mut self.held[index][piece.register];
                held.bits |= taken(piece);
                held.trigger |= trigger;
            }
        }
        let bits = |part: Option<Vec<Piece>>, trigger| part.map(|pieces| Bits { trigger, pieces });
        self.description.variables.push(Variable {
            name,
            kind,
            width,
            volatile: attributes.volatile,
            read: bits(read, attributes.read_trigger),
            write: bits(write, attributes.write_trigger),
        });
        Ok(())
    }

    /// Rule 7 of a bit list: its names are those of earlier registers.
    fn list_pieces(&self, list: &ListText) -> Judged<Vec<Piece>> {
        let piece = |text: &PieceText| match self.names.get(text.register.of(self.text)) {
            Some(Entity::Register(register)) => Ok(self.piece(*register, text.bits)),
            _ => refused(7, text.register),
        };
        list.pieces.iter().map(piece).collect()
    }

    /// A whole register is all its bits.
    fn piece(&self, register: usize, bits: Option<Range>) -> Piece {
        let (high, low) = match bits {
            Some(range) => (range.first, range.last),
            None => (self.description.registers[register].width - 1, 0),
        };
        Piece {
            register,
            high,
            low,
        }
    }

    /// Rule 11, the pairing: the pieces of the read part and of the write part.
    fn parts(
        &self,
        modifiers: (Option<Part>, Option<Option<Part>>),
        first: Vec<Piece>,
        second: Option<Vec<Piece>>,
    ) -> Option<[Option<Vec<Piece>>; 2]> {
        Some(match pairing(modifiers.0, modifiers.1)? {
            Pairing::One(Part::Read) => [Some(first), None],
            Pairing::One(Part::Write) => [None, Some(first)],
            Pairing::Each(Part::Read) => [Some(first), second],
            Pairing::Each(Part::Write) => [second, Some(first)],
            Pairing::Both => {
                let given = |part| {
                    let registers = &self.description.registers;
                    first
                        .iter()
                        .all(|piece| registers[piece.register].part(part).is_some())
                };
                match (given(Part::Read), given(Part::Write)) {
                    (true, true) => [Some(first.clone()), Some(first)],
                    (true, false) => [Some(first), None],
                    (false, true) => [None, Some(first)],
                    (false, false) => return None,
                }
            }
        })
    }

    /// Rule 11, the bits: how many each part has.
    fn widths(&self, parts: [&Option<Vec<Piece>>; 2]) -> Option<[Option<u32>; 2]> {
        let mut widths = [None, None];
        for ((part, pieces), width) in PARTS.into_iter().zip(parts).zip(&mut widths) {
            if let Some(pieces) = pieces {
                *width = Some(self.width(part, pieces)?);
            }
        }
        Some(widths)
    }

    /// The number of bits, if it is 32 at most, each is a dot in that part's mask, and none comes
    /// twice.
    fn width(&self, part: Part, pieces: &[Piece]) -> Option<u32> {
        let mut width = 0;
        let mut map = [0; REGISTERS];
        for piece in pieces {
            let register = &self.description.registers[piece.register];
            let dots = register.part(part)?.mask.dots;
            if piece.high >= register.width || piece.low > piece.high {
                return None;
            }
            let bits = taken(piece);
            if bits & !dots != 0 || bits & map[piece.register] != 0 {
                return None;
            }
            map[piece.register] |= bits;
            width += piece.high - piece.low + 1;
        }
        (width <= 32).then_some(width)
    }

    /// Rule 16, and then the description.
    pub fn finish(self) -> Judged<Description> {
        for (index, register) in self.description.registers.iter().enumerate() {
            for (part, held) in PARTS.into_iter().zip(&self.held) {
                if let Some(port) = register.part(part) {
                    if port.mask.dots & !held[index].bits != 0 {
                        return refused(16, register.name);
                    }
                }
            }
        }
        Ok(self.description)
    }
}

/// The bits of its register that a piece takes.
fn taken(piece: &Piece) -> u32 {
    all_bits(piece.high + 1) & !all_bits(piece.low)
}

/// Rule 9 of the masks: the mask of the read part and that of the write part, each as long as the
/// register's stated width, whether or not that is one of the widths.
fn masks(register: &RegisterText, read: bool, write: bool) -> Option<(Mask, Mask)> {
    let mut read_mask = None;
    let mut write_mask = None;
    for text in &register.masks {
        let mask = Mask::of(text.elements, register.width)?;
        let (for_read, for_write) = match text.modifier {
            None => (read, write),
            Some(Part::Read) if read => (true, false),
            Some(Part::Write) if write => (false, true),
            Some(_) => return None,
        };
        if for_read && read_mask.replace(mask).is_some() {
            return None;
        }
        if for_write && write_mask.replace(mask).is_some() {
            return None;
        }
    }
    let dots = Mask::dots(register.width);
    Some((read_mask.unwrap_or(dots), write_mask.unwrap_or(dots)))
}

#[derive(Default)]
struct Attributes {
    volatile: bool,
    read_trigger: bool,
    write_trigger: bool,
}

/// Rule 13: what the attributes say of a variable with these parts.
fn attributes(list: &[Attribute], [read, write]: [bool; 2]) -> Option<Attributes> {
    let mut said = Attributes::default();
    let set = |flag: &mut bool, present: bool| {
        let good = present && !*flag;
        *flag = true;
        good
    };
    for attribute in list {
        let good = match attribute {
            Attribute::Volatile => set(&mut said.volatile, read),
            Attribute::Trigger(Some(Part::Read)) => set(&mut said.read_trigger, read),
            Attribute::Trigger(Some(Part::Write)) => set(&mut said.write_trigger, write),
            Attribute::Trigger(None) => {
                (!read || set(&mut said.read_trigger, read))
                    && (!write || set(&mut said.write_trigger, write))
            }
        };
        if !good {
            return None;
        }
    }
    Some(said)
}
