//! The storage board of demand 3, and what an onlooker expects of it. Nothing here knows how a
//! station makes its numbers: the board sees accesses, the onlooker values.

use std::collections::HashMap;

use crate::generate::{bits_above, Random};
use crate::{Access, Answer, Description, Kind, Mask, Part, Variable};

/// A station's five calls, whoever answers them.
pub trait Calls {
    fn open(&mut self, power: &[u32]) -> Answer;
    fn begin_read(&mut self, variable: usize) -> Answer;
    fn begin_write(&mut self, variable: usize, value: i64) -> Answer;
    fn confirm(&mut self, number: u32) -> Answer;
    fn abandon(&mut self) -> Answer;
}

/// A cell for each register, one number of its width: a read at its read place gives it. A number
/// written goes to the one register at that write place whose fixed bits it matches.
pub struct Board {
    pub cells: Vec<u32>,
    widths: Vec<u32>,
    reads: HashMap<(usize, u32), (usize, Mask)>,
    writes: HashMap<(usize, u32), Vec<(usize, Mask)>>,
}

impl Board {
    /// A board with these numbers in its cells, as far as each register is wide.
    pub fn new(description: &Description, cells: &[u32]) -> Board {
        let mut board = Board {
            cells: cells_of(description, cells),
            widths: description.registers.iter().map(|r| r.width).collect(),
            reads: HashMap::new(),
            writes: HashMap::new(),
        };
        for (index, register) in description.registers.iter().enumerate() {
            if let Some(port) = register.read {
                let place = (port.parameter, port.offset);
                board.reads.insert(place, (index, port.mask));
            }
            if let Some(port) = register.write {
                let place = (port.parameter, port.offset);
                let there = board.writes.entry(place).or_default();
                there.push((index, port.mask));
            }
        }
        board
    }

    /// Performs an access; gives the number for its confirmation, which is ignored after a write. A
    /// number that no register takes, or more than one, or that is wider than its register, is a fault of
    /// the station or the tables.
    pub fn perform(&mut self, access: Access) -> u32 {
        let place = (access.parameter, access.offset);
        match access.direction {
            Part::Read => self.cells[self.reads[&place].0],
            Part::Write => {
                let there = self.writes[&place].iter();
                let takers: Vec<usize> = there
                    .filter(|(_, mask)| mask.fits(access.number))
                    .map(|(register, _)| *register)
                    .collect();
                assert_eq!(takers.len(), 1, "{takers:?} take {access:?}");
                let wide = u64::from(access.number) >> self.widths[takers[0]];
                assert_eq!(wide, 0, "bits above the width in {access:?}");
                self.cells[takers[0]] = access.number;
                0x99
            }
        }
    }

    /// Performs an access, and gives what a careless caller confirms it with: the number, now and then
    /// with bits above the width of the register read.
    fn perform_carelessly(&mut self, random: &mut Random, access: Access) -> u32 {
        let number = self.perform(access);
        match access.direction {
            Part::Write => number,
            Part::Read => {
                let (register, _) = self.reads[&(access.parameter, access.offset)];
                bits_above(random, self.widths[register], number)
            }
        }
    }

    /// The register that an access reads, if its cell contradicts the fixed bits of its read mask.
    fn contradicts(&self, access: Access) -> Option<usize> {
        if access.direction == Part::Write {
            return None;
        }
        let (register, mask) = self.reads[&(access.parameter, access.offset)];
        (!mask.fits(self.cells[register])).then_some(register)
    }
}

/// The numbers as far as each register is wide: bits above count as 0.
fn cells_of(description: &Description, numbers: &[u32]) -> Vec<u32> {
    let registers = description.registers.iter().zip(numbers);
    registers
        .map(|(register, number)| register.cut(*number))
        .collect()
}

/// The read-back's premise of a description: registers with both parts have one mask for both.
pub fn one_mask_each(description: &Description) -> bool {
    description
        .registers
        .iter()
        .all(|register| match (register.read, register.write) {
            (Some(read), Some(write)) => read.mask == write.mask,
            _ => true,
        })
}

/// Its premise of power-on numbers: each obeys the masks of its register.
pub fn masks_obeyed(description: &Description, power: &[u32]) -> bool {
    description
        .registers
        .iter()
        .zip(power)
        .all(|(register, number)| {
            let ports = [register.read, register.write];
            ports.iter().flatten().all(|port| port.mask.fits(*number))
        })
}

/// Power-on numbers: mostly such that obey the masks, where one number can obey both; now and then
/// with bits above the width.
pub fn power_on(random: &mut Random, description: &Description) -> Vec<u32> {
    let careless = random.one_in(4);
    description
        .registers
        .iter()
        .map(|register| {
            let mut number = register.cut(random.number() as u32);
            for port in [register.write, register.read].iter().flatten() {
                if !careless {
                    number = port.mask.obeying(number);
                }
            }
            bits_above(random, register.width, number)
        })
        .collect()
}

/// Not volatile, no trigger, read and written through the same bits in the same order.
pub fn plain(variable: &Variable) -> bool {
    match (&variable.read, &variable.write) {
        (Some(read), Some(write)) => {
            !variable.volatile && !read.trigger && !write.trigger && read.pieces == write.pieces
        }
        _ => false,
    }
}

/// Whether a register that the variable writes shares its write place with another one.
pub fn shares_a_place(description: &Description, variable: &Variable) -> bool {
    let pairs = description.beside();
    let mut pieces = variable.write.iter().flat_map(|bits| &bits.pieces);
    pieces.any(|piece| {
        let of = |pair: &(usize, usize)| pair.0 == piece.register || pair.1 == piece.register;
        pairs.iter().any(of)
    })
}

/// Whether some bit that the variable reads is one that no register of width 8 has.
pub fn is_wide(variable: &Variable) -> bool {
    let mut pieces = variable.read.iter().flat_map(|bits| &bits.pieces);
    pieces.any(|piece| piece.high > 7)
}

/// The value that cells hold for a variable with a read part, worked out bit by bit.
pub fn held_by(variable: &Variable, cells: &[u32]) -> i64 {
    let mut value: i64 = 0;
    for piece in &variable.read.as_ref().expect("a read part").pieces {
        for bit in (piece.low..=piece.high).rev() {
            value = value * 2 + i64::from(cells[piece.register] >> bit & 1);
        }
    }
    if variable.kind == Kind::Signed && value >> (variable.width - 1) & 1 == 1 {
        value -= 1 << variable.width;
    }
    value
}

/// A value in the variable's range.
pub fn some_value(random: &mut Random, variable: &Variable) -> i64 {
    let (least, greatest) = variable.bounds();
    least + (random.number() % (greatest - least + 1) as u64) as i64
}

/// What reading a plain variable must give.
#[derive(Clone, Copy, Debug, PartialEq)]
enum Known {
    Value(i64),
    HalfWritten,
}

/// What became of an operation.
pub enum Ended {
    Done(i64),
    Abandoned,
    Refused(u8),
}

/// Takes a begun operation to its end; abandons it at an offer once in `odds` times, or never if
/// that is 0. An access that is abandoned may have been performed or not.
pub fn to_its_end(
    random: &mut Random,
    station: &mut dyn Calls,
    board: &mut Board,
    begun: Answer,
    odds: usize,
) -> Ended {
    let mut answer = begun;
    let mut confirmed = 0;
    loop {
        match answer {
            Answer::Offer(access) if odds > 0 && random.one_in(odds) => {
                if random.one_in(2) {
                    board.perform(access);
                }
                assert_eq!(station.abandon(), Answer::Abandoned);
                return Ended::Abandoned;
            }
            Answer::Offer(access) => {
                confirmed += 1;
                let contradicted = board.contradicts(access);
                answer = station.confirm(board.perform_carelessly(random, access));
                let named = match answer {
                    Answer::Contradicted { register } => Some(register),
                    _ => None,
                };
                assert_eq!(named, contradicted, "the confirmation of {access:?}");
            }
            Answer::Done { value, accesses } => {
                assert_eq!(accesses, confirmed);
                return Ended::Done(value);
            }
            Answer::Refused(number) => return Ended::Refused(number),
            Answer::Contradicted { .. } => return Ended::Refused(52),
            other => panic!("{other:?}"),
        }
    }
}

/// From one opening on, so many reads and writes of a description that has variables, some of them
/// abandoned: each read of a plain variable gives the value last finished for it, or its power-on
/// bits if none was, and is refused as half-written where its own write was abandoned. Where a
/// register has two masks, or a power-on number contradicts its own, a read may be refused by 52
/// instead. Tells `note` what it saw.
pub fn watch(
    random: &mut Random,
    description: &Description,
    station: &mut dyn Calls,
    operations: usize,
    note: &mut dyn FnMut(&'static str),
) {
    let power = power_on(random, description);
    let premise = one_mask_each(description) && masks_obeyed(description, &power);
    assert_eq!(station.open(&power), Answer::Opened);
    let mut board = Board::new(description, &power);
    let at_power_on =
        |variable: &Variable| plain(variable).then(|| Known::Value(held_by(variable, &power)));
    let mut known: Vec<Option<Known>> = description.variables.iter().map(at_power_on).collect();
    for _ in 0..operations {
        let index = random.below(description.variables.len());
        let variable = &description.variables[index];
        if random.one_in(2) {
            let value = some_value(random, variable);
            let begun = station.begin_write(index, value);
            let now = match to_its_end(random, station, &mut board, begun, 6) {
                Ended::Done(done) => {
                    assert_eq!(done, value);
                    Known::Value(value)
                }
                Ended::Abandoned => Known::HalfWritten,
                Ended::Refused(number) => {
                    assert_eq!((number, variable.write.is_none()), (26, true));
                    continue;
                }
            };
            known[index] = known[index].map(|_| now);
        } else {
            let begun = station.begin_read(index);
            let ended = to_its_end(random, station, &mut board, begun, 6);
            let seen = seen_of(known[index], ended);
            note(seen);
            assert!(!premise || seen != "contradicted", "under the premise");
            if seen == "read back" && premise {
                note("under the premise");
                if shares_a_place(description, variable) {
                    note("from a shared place");
                }
                if is_wide(variable) {
                    note("from a wide register");
                }
            }
        }
    }
}

/// Holds the end of a read against what is known of its variable.
fn seen_of(known: Option<Known>, ended: Ended) -> &'static str {
    match (known, ended) {
        (Some(known), Ended::Done(value)) => {
            assert_eq!(known, Known::Value(value));
            "read back"
        }
        (Some(known), Ended::Refused(28)) => {
            assert_eq!(known, Known::HalfWritten);
            "half-written"
        }
        (Some(known), Ended::Abandoned) => {
            assert_ne!(known, Known::HalfWritten);
            "abandoned"
        }
        (_, Ended::Refused(52)) => "contradicted",
        (Some(_), Ended::Refused(number)) => panic!("refused {number}"),
        (None, _) => "not plain",
    }
}

#[cfg(test)]
mod tests {
    use super::*;
    use crate::load::{load, Verdict};

    #[test]
    fn a_number_goes_to_the_register_that_it_matches() {
        let text = b"device d(b:bit[8] port@{0..2}){register p=write b@2,mask '1*******':bit[8];\
            register q=write b@2,mask '0*****1*':bit[8];register r=write b@2,mask '00****0*':bit[8];\
            register s=write b@1,mask '1*******':bit[8];}";
        let Verdict::Accepted { description } = load(text) else {
            panic!("it is accepted");
        };
        let mut board = Board::new(&description, &[1, 2, 3, 4]);
        let mut write = |offset, number| {
            board.perform(Access {
                direction: Part::Write,
                parameter: 0,
                offset,
                number,
            });
            board.cells.clone()
        };
        assert_eq!(write(2, 0xFF), [0xFF, 2, 3, 4]);
        assert_eq!(write(2, 0x42), [0xFF, 0x42, 3, 4]);
        assert_eq!(write(2, 0x3D), [0xFF, 0x42, 0x3D, 4]);
        assert_eq!(write(1, 0x80), [0xFF, 0x42, 0x3D, 0x80]);
    }
}
