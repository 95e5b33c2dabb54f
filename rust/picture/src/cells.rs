//! Who has which bit of a register: a cell for each bit of a part, and runs of cells to draw as one.

use desfanuk::{Described, Direction, Piece, Variable};

/// A bit of a part of a register.
#[derive(Clone, Copy, Debug, PartialEq, Eq)]
pub enum Cell<'d> {
    /// This bit of a variable.
    Held { variable: Variable<'d>, bit: usize },
    /// A bit that the mask fixes.
    Fixed(bool),
    /// A `*`: written as 0, and not looked at when read.
    Any,
}

/// Cells that are drawn as one: bits of a variable that follow each other, or one other bit.
#[derive(Clone, Copy, Debug, PartialEq, Eq)]
pub struct Run<'d> {
    /// The first of them, which has the highest bit.
    pub cell: Cell<'d>,
    pub length: usize,
}

/// The cells of a part, bit 0 first, if the register has that part.
pub fn cells(
    description: Described<'_>,
    register: usize,
    part: Direction,
) -> Option<Vec<Cell<'_>>> {
    let width = description.register_width(register)?;
    let mask = description.register_part(register, part)?;
    let mut cells: Vec<Cell> = (0..width)
        .map(|bit| match (mask.fixed >> bit & 1, mask.ones >> bit & 1) {
            (0, _) => Cell::Any,
            (_, one) => Cell::Fixed(one == 1),
        })
        .collect();
    for variable in description.each_variable() {
        for (bit, place) in bits_of(variable, part).iter().enumerate() {
            if place.0 == register {
                cells[place.1] = Cell::Held { variable, bit };
            }
        }
    }
    Some(cells)
}

/// Where each bit of a variable lies, bit 0 first: its register and the bit of that. None, if the
/// variable has not that part.
pub fn bits_of(variable: Variable<'_>, part: Direction) -> Vec<(usize, usize)> {
    let pieces = variable.part(part).map_or(Vec::new(), |part| part.pieces);
    let bits = |piece: &Piece| {
        let register = piece.register;
        (piece.low..=piece.high).map(move |bit| (register, bit))
    };
    pieces.iter().rev().flat_map(bits).collect()
}

/// The registers of a part of a variable in the order of their accesses: by first mention, each once.
pub fn registers_of(variable: Variable<'_>, part: Direction) -> Vec<usize> {
    let mut registers = Vec::new();
    for (register, _) in bits_of(variable, part).into_iter().rev() {
        if !registers.contains(&register) {
            registers.push(register);
        }
    }
    registers
}

/// The runs of a part's cells, the highest bit first.
pub fn runs<'d>(cells: &[Cell<'d>]) -> Vec<Run<'d>> {
    let mut runs: Vec<Run> = Vec::new();
    for cell in cells.iter().rev() {
        match runs.last_mut() {
            Some(run) if goes_on(run, cell) => run.length += 1,
            _ => runs.push(Run {
                cell: *cell,
                length: 1,
            }),
        }
    }
    runs
}

/// Whether a cell is the next lower bit of the same variable.
fn goes_on<'d>(run: &Run<'d>, cell: &Cell<'d>) -> bool {
    match (run.cell, *cell) {
        (
            Cell::Held {
                variable: one,
                bit: top,
            },
            Cell::Held {
                variable: other,
                bit,
            },
        ) => one == other && bit + run.length == top,
        _ => false,
    }
}
