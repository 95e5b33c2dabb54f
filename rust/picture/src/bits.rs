//! A number in small cells, bit by bit: which of them are a variable's, which a neighbour's, and which
//! are fixed.

use desfanuk::{Direction, Number, Variable};

use crate::cells::{cells, Cell};
use crate::html::{name_of, Source};

/// A number of a part of a register, for a page about a variable.
pub fn bits<'d>(
    source: &Source<'d>,
    variable: Variable<'d>,
    register: usize,
    part: Direction,
    number: Number,
) -> String {
    let cells = cells(source.description, register, part).expect("the part is there");
    let drawn: String = cells
        .iter()
        .enumerate()
        .rev()
        .map(|(bit, cell)| bit_of(variable, *cell, number >> bit & 1))
        .collect();
    format!(
        "<div class=\"small\" style=\"--bits:{}\" aria-hidden=\"true\">{drawn}</div>\n",
        cells.len().min(ROW)
    )
}

/// The bits of a row: a register of 32 takes two.
const ROW: usize = 16;

fn bit_of<'d>(variable: Variable<'d>, cell: Cell<'d>, bit: u32) -> String {
    match cell {
        Cell::Held { variable: one, .. } if one == variable => format!("<b>{bit}</b>"),
        Cell::Held {
            variable: other, ..
        } => format!("<i title=\"{}\">{bit}</i>", name_of(other)),
        Cell::Fixed(_) => format!("<u title=\"fixed\">{bit}</u>"),
        Cell::Any => "<s>\u{2217}</s>".to_string(),
    }
}

/// What the small cells mean.
pub const KEY: &str = "<p class=\"key\" aria-hidden=\"true\"><span><b>1</b> its own</span> \
    <span><i>1</i> a neighbour\u{2019}s, left alone</span> <span><u>0</u> fixed</span> \
    <span><s>\u{2217}</s> irrelevant</span></p>\n";
