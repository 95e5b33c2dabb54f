//! The board that the page's numbers come from: a cell for each register, which keeps what is written.
//! A number goes to the one register at its place whose fixed bits it has, and a read gives the cell
//! with the fixed bits of its read mask, as a board that is as described does.

use desfanuk::{Access, Described, Direction, Number};

#[derive(Clone)]
pub struct Board<'d> {
    description: Described<'d>,
    /// What each register holds.
    pub cells: Vec<Number>,
}

/// Where the numbers that a board holds at first come from: unlike ones from register to register.
const PATTERN: Number = 0x5A3C_96E1;

impl<'d> Board<'d> {
    /// A board as it is when switched on: what can be read is something.
    pub fn new(description: Described<'d>) -> Board<'d> {
        let cells = (0..description.registers())
            .map(|register| at_first(description, register))
            .collect();
        Board { description, cells }
    }

    /// The register that an access is about.
    pub fn register(&self, access: Access) -> usize {
        (0..self.description.registers())
            .find(|register| self.takes(*register, access))
            .expect("an access is about a register")
    }

    /// Performs an access, and gives the number that it carries.
    pub fn perform(&mut self, access: Access) -> Number {
        let register = self.register(access);
        let cell = &mut self.cells[register];
        match access.direction {
            Direction::Write => *cell = access.number,
            Direction::Read => {
                let part = self.description.register_part(register, Direction::Read);
                let mask = part.expect("it is read");
                *cell = *cell & !mask.fixed | mask.ones;
            }
        }
        *cell
    }

    fn takes(&self, register: usize, access: Access) -> bool {
        let part = self.description.register_part(register, access.direction);
        part.is_some_and(|part| {
            let is_here = (part.parameter, part.offset) == (access.parameter, access.offset);
            let is_read = access.direction == Direction::Read;
            is_here && (is_read || access.number & part.fixed == part.ones)
        })
    }
}

fn at_first(description: Described<'_>, register: usize) -> Number {
    let width = description.register_width(register).expect("a register");
    let pattern = PATTERN.rotate_left(8 * (register % 4) as u32) >> (32 - width);
    match description.register_part(register, Direction::Read) {
        Some(part) => part.dots & pattern,
        None => 0,
    }
}
