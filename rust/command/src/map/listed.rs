//! An accepted text's parameters, registers and variables as JSON. The verdict is the proved program's. The lists are
//! the second implementation's reading of the same text, whose tables rust/compare holds to the proved ones; here the
//! proved station confirms them before they go out.

use second::{Bits, Description, Kind, Mask, Name, Parameter, Port, Register, Variable};

use super::confirmed::is_confirmed;
use crate::json;
use crate::names::Names;
use crate::report::Trouble;
use crate::source::visible;
use crate::verdict::Verdict;

/// `"device":..,"parameters":[..],"registers":[..],"variables":[..]`
pub fn members(text: &[u8], verdict: Verdict) -> Result<String, Trouble> {
    let second::Verdict::Accepted { description } = second::load(text) else {
        return Err(differs());
    };
    let counts = Verdict::Accepted {
        parameters: description.parameters.len(),
        registers: description.registers.len(),
        variables: description.variables.len(),
    };
    if counts != verdict || !is_confirmed(text, &description)? {
        return Err(differs());
    }
    let of = Of { text, description };
    let device = json::text(&Names::ask(text)?.device);
    let Description {
        parameters,
        registers,
        variables,
    } = &of.description;
    Ok(format!(
        "\"device\":{device},\"parameters\":{},\"registers\":{},\"variables\":{}",
        json::list(parameters.iter().map(|one| of.parameter(one))),
        json::list(registers.iter().map(|one| of.register(one))),
        json::list(variables.iter().map(|one| of.variable(one)))
    ))
}

fn differs() -> Trouble {
    Trouble::new("the second implementation reads this text otherwise: one of the two is wrong, please tell us")
}

struct Of<'t> {
    text: &'t [u8],
    description: Description,
}

impl Of<'_> {
    fn name(&self, name: &Name) -> String {
        json::text(&visible(name.of(self.text)))
    }

    fn parameter(&self, parameter: &Parameter) -> String {
        let ranges = parameter.ranges.iter();
        let offsets = json::list(ranges.map(|range| format!("[{},{}]", range.low, range.high)));
        let name = self.name(&parameter.name);
        let width = parameter.width;
        format!("{{\"name\":{name},\"width\":{width},\"offsets\":{offsets}}}")
    }

    fn register(&self, register: &Register) -> String {
        let part = |port: &Option<Port>| match port {
            Some(port) => self.port(port, register.width),
            None => "null".to_string(),
        };
        format!(
            "{{\"name\":{},\"width\":{},\"read\":{},\"write\":{}}}",
            self.name(&register.name),
            register.width,
            part(&register.read),
            part(&register.write)
        )
    }

    fn port(&self, port: &Port, width: u32) -> String {
        let parameter = &self.description.parameters[port.parameter];
        format!(
            "{{\"parameter\":{},\"offset\":{},\"mask\":\"{}\"}}",
            self.name(&parameter.name),
            port.offset,
            elements(port.mask, width)
        )
    }

    fn variable(&self, variable: &Variable) -> String {
        let part = |bits: &Option<Bits>| match bits {
            Some(bits) => self.bits(bits),
            None => "null".to_string(),
        };
        let kind = match variable.kind {
            Kind::Int => "int",
            Kind::Signed => "signed int",
            Kind::Bool => "bool",
        };
        let (least, greatest) = variable.bounds();
        format!(
            "{{\"name\":{},\"type\":\"{kind}\",\"width\":{},\"least\":{least},\"greatest\":{greatest},\
             \"volatile\":{},\"read\":{},\"write\":{}}}",
            self.name(&variable.name),
            variable.width,
            variable.volatile,
            part(&variable.read),
            part(&variable.write)
        )
    }

    /// The bits, most significant first.
    fn bits(&self, bits: &Bits) -> String {
        let piece = |piece: &second::Piece| {
            let register = self.name(&self.description.registers[piece.register].name);
            let (high, low) = (piece.high, piece.low);
            format!("{{\"register\":{register},\"high\":{high},\"low\":{low}}}")
        };
        let pieces = json::list(bits.pieces.iter().map(piece));
        format!("{{\"trigger\":{},\"pieces\":{pieces}}}", bits.trigger)
    }
}

/// A mask as it is written, the rightmost element for bit 0.
fn elements(mask: Mask, width: u32) -> String {
    let has = |bits: u32, bit: u32| bits >> bit & 1 == 1;
    let element = |bit| match (
        has(mask.dots, bit),
        has(mask.fixed, bit),
        has(mask.ones, bit),
    ) {
        (true, ..) => '.',
        (_, true, true) => '1',
        (_, true, false) => '0',
        _ => '*',
    };
    (0..width).rev().map(element).collect()
}
