//! A description written down again, in one plain way: what tables hold can so be put to the loader.

use crate::description::{Bits, Description, Kind, Mask, Part, PARTS};

/// The text of a description, with names of its own. Where the description is none that the loader
/// would give, the text says as much of it as a text can.
pub fn written(description: &Description) -> Vec<u8> {
    let parameters: Vec<String> = description
        .parameters
        .iter()
        .enumerate()
        .map(|(i, parameter)| {
            let ranges = parameter.ranges.iter();
            let ranges = join(
                ranges.map(|range| format!("{}..{}", range.low, range.high)),
                ",",
            );
            format!("p{i}:bit[{}]port@{{{ranges}}}", parameter.width)
        })
        .collect();
    let mut text = format!("device d({}){{", parameters.join(","));
    for (i, register) in description.registers.iter().enumerate() {
        let ports = PARTS
            .into_iter()
            .filter_map(|part| Some((part, register.part(part)?)));
        let masks = ports.clone().map(|(part, port)| {
            format!(
                ",{} mask '{}'",
                word(part),
                elements(port.mask, register.width)
            )
        });
        let masks = join(masks, "");
        let ports =
            ports.map(|(part, port)| format!("{} p{}@{}", word(part), port.parameter, port.offset));
        let ports = join(ports, ",");
        text += &format!("register r{i}={ports}{masks}:bit[{}];", register.width);
    }
    for (i, variable) in description.variables.iter().enumerate() {
        let parts = PARTS
            .into_iter()
            .filter_map(|part| Some((part, variable.part(part)?)));
        let lists = parts
            .clone()
            .map(|(part, bits)| format!("{} {}", word(part), pieces(bits)));
        let lists = join(lists, ",");
        let triggers = parts.filter(|(_, bits)| bits.trigger);
        let triggers = join(
            triggers.map(|(part, _)| format!(",{} trigger", word(part))),
            "",
        );
        let volatile = if variable.volatile { ",volatile" } else { "" };
        let kind = match variable.kind {
            Kind::Int => format!("int({})", variable.width),
            Kind::Signed => format!("signed int({})", variable.width),
            Kind::Bool => "bool".to_string(),
        };
        text += &format!("variable v{i}={lists}{volatile}{triggers}:{kind};");
    }
    (text + "}").into_bytes()
}

fn join(texts: impl Iterator<Item = String>, between: &str) -> String {
    texts.collect::<Vec<_>>().join(between)
}

fn word(part: Part) -> &'static str {
    match part {
        Part::Read => "read",
        Part::Write => "write",
    }
}

/// As many elements as the width says, as far as a mask has bits.
fn elements(mask: Mask, width: u32) -> String {
    let element = |bit: u32| match (
        mask.dots >> bit & 1,
        mask.fixed >> bit & 1,
        mask.ones >> bit & 1,
    ) {
        (1, _, _) => '.',
        (0, 1, 0) => '0',
        (0, 1, _) => '1',
        _ => '*',
    };
    (0..width.min(32)).rev().map(element).collect()
}

fn pieces(bits: &Bits) -> String {
    let piece = bits.pieces.iter();
    join(
        piece.map(|piece| format!("r{}[{}..{}]", piece.register, piece.high, piece.low)),
        "#",
    )
}
