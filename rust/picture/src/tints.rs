//! A tint for each variable, so that no two that stand side by side have the same.

use desfanuk::{Described, Direction};

use crate::cells::{cells, Cell};

/// How many tints the page's style has.
pub const TINTS: usize = 6;

/// The tint of each variable: from its index on, the first that no neighbour before it has.
pub fn tints(description: Described<'_>) -> Vec<usize> {
    let pairs = neighbours(description);
    let mut tints: Vec<usize> = Vec::new();
    for variable in 0..description.variables() {
        let taken: Vec<usize> = pairs
            .iter()
            .filter(|(one, other)| *one == variable && *other < variable)
            .map(|(_, other)| tints[*other])
            .collect();
        let wanted = (0..TINTS).map(|step| (variable + step) % TINTS);
        let free = wanted.clone().find(|tint| !taken.contains(tint));
        tints.push(free.unwrap_or(variable % TINTS));
    }
    tints
}

/// Every two variables that have bits side by side in some part of a register, both ways round.
fn neighbours(description: Described<'_>) -> Vec<(usize, usize)> {
    let mut pairs = Vec::new();
    for register in 0..description.registers() {
        for part in [Direction::Read, Direction::Write] {
            let cells = cells(description, register, part).unwrap_or_default();
            for pair in cells.windows(2) {
                if let [Cell::Held { variable: one, .. }, Cell::Held {
                    variable: other, ..
                }] = pair
                {
                    let [one, other] = [one, other].map(|variable| variable.index());
                    pairs.extend([(one, other), (other, one)]);
                }
            }
        }
    }
    pairs
}
