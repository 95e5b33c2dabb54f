//! The text itself, with its lines numbered and its names leading to what the page shows of them.

use crate::html::{escaped, Source};
use crate::text::{shown, stretches, Kind, Stretch};

pub fn listing(source: &Source) -> String {
    let mut lines = vec![String::new()];
    for stretch in stretches(source.description.text()) {
        let text = shown(stretch.bytes);
        for (index, piece) in text.split('\n').enumerate() {
            if index > 0 {
                lines.push(String::new());
            }
            let line = lines.last_mut().expect("there is a line");
            line.push_str(&marked(source, stretch, piece));
        }
    }
    if lines.last().is_some_and(String::is_empty) {
        lines.pop();
    }
    let lines: String = lines
        .iter()
        .map(|line| format!("<span>{line}\n</span>"))
        .collect();
    format!("<pre class=\"listing\">{lines}</pre>\n")
}

fn marked(source: &Source, stretch: Stretch<'_>, piece: &str) -> String {
    let text = escaped(piece);
    let names = source.description;
    let is_register = || (0..names.registers()).any(|r| names.register_name(r) == Some(piece));
    match stretch.kind {
        Kind::Comment if !piece.is_empty() => format!("<i>{text}</i>"),
        Kind::Word if names.variable(piece).is_some() => {
            format!("<a href=\"#v-{text}\" data-v=\"{text}\">{text}</a>")
        }
        Kind::Word if is_register() => format!("<a href=\"#r-{text}\">{text}</a>"),
        _ => text,
    }
}
