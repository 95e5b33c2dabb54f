//! The cells of the map, bit by bit, held against what the second implementation's station reads and
//! writes.

mod parts;

use desfanuk::{Described, Description, Direction, Variable};
use parts::second::Second;
use parts::{all, boards, one, page};
use second::{Access, Answer, Part};

/// The holder of each bit of a strip, the highest first: the name of a variable and the bit of it.
fn holders(strip: &str, width_of: impl Fn(&str) -> usize) -> Vec<Option<(String, usize)>> {
    let mut holders = Vec::new();
    for cell in strip.lines().filter(|line| line.contains("class=\"")) {
        if !cell.starts_with("<a ") {
            holders.push(None);
            continue;
        }
        let name = one(cell, "data-v=\"", "\"");
        let span: usize = one(cell, "--span:", "\"").parse().expect("a span");
        let top = match all(cell, "<small>[", "]").first() {
            Some(bits) => bits
                .split("..")
                .next()
                .expect("a bit")
                .parse()
                .expect("a bit"),
            None => width_of(name) - 1,
        };
        holders.extend((0..span).map(|step| Some((name.to_string(), top - step))));
    }
    holders
}

/// One bit of one register, as the page has it and as a station has it.
struct Bit<'t, 'd> {
    text: &'t [u8],
    description: Described<'d>,
    register: usize,
    place: usize,
    variable: Variable<'d>,
    bit: usize,
}

impl Bit<'_, '_> {
    /// Whether an access is about the register.
    fn is_here(&self, access: Access) -> bool {
        let direction = match access.direction {
            Part::Read => Direction::Read,
            Part::Write => Direction::Write,
        };
        let part = self.description.register_part(self.register, direction);
        part.is_some_and(|part| {
            (part.parameter, u32::from(part.offset)) == (access.parameter, access.offset)
                && (access.direction == Part::Read || access.number & part.fixed == part.ones)
        })
    }

    /// The value with this bit alone.
    fn value(&self) -> i64 {
        match 1 << self.bit {
            value if value > *self.variable.range().end() => -value,
            value => value,
        }
    }

    /// A write of the bit alone sets it at its place, and a write of 0 does not.
    fn hold_write(&self) {
        for (value, want) in [(self.value(), 1), (0, 0)] {
            let mut second = Second::open(self.text);
            let mut answer = second.begin_write(self.variable.index(), value);
            let mut seen = 0;
            while let Answer::Offer(access) = answer {
                if self.is_here(access) {
                    assert_eq!(access.number >> self.place & 1, want, "{access:?}");
                    seen += 1;
                }
                answer = second.confirm(0);
            }
            assert_eq!(seen, 1, "accesses of the register");
        }
    }

    /// A read to which the register gives its fixed bits and this one reads the bit alone.
    fn hold_read(&self) {
        let mut second = Second::open(self.text);
        let mut answer = second.begin_read(self.variable.index());
        while let Answer::Offer(access) = answer {
            let ones = (0..self.description.registers())
                .filter_map(|r| self.description.register_part(r, Direction::Read))
                .find(|part| {
                    (part.parameter, u32::from(part.offset)) == (access.parameter, access.offset)
                })
                .expect("a register is read there")
                .ones;
            let here = u32::from(self.is_here(access));
            answer = second.confirm(ones | here << self.place);
        }
        let Answer::Done { value, .. } = answer else {
            panic!("{answer:?}");
        };
        assert_eq!(value, self.value());
    }
}

/// Holds each bit of each strip of a page, and counts them.
fn hold_page(text: &[u8], page: &str, description: Described<'_>) -> usize {
    let variable = |name: &str| description.variable(name).expect("a variable");
    let mut held = 0;
    for register in 0..description.registers() {
        let called = description.register_name(register).expect("a register");
        let card = one(page, &format!("id=\"r-{called}\""), "</section>");
        for strip in card.split("<div class=\"part ").skip(1) {
            let cells = strip.split_once('\n').expect("lines").1;
            let holders = holders(cells, |name| variable(name).width());
            for (place, holder) in holders.iter().rev().enumerate() {
                let Some((name, bit)) = holder else { continue };
                let bit = Bit {
                    text,
                    description,
                    register,
                    place,
                    variable: variable(name),
                    bit: *bit,
                };
                let parts = strip.split('"').next().expect("the parts");
                if parts.contains('r') {
                    bit.hold_read();
                }
                if parts.contains('w') {
                    bit.hold_write();
                }
                held += 1;
            }
        }
    }
    held
}

/// Each bit of each strip is the bit of the variable that a station reads and writes there.
#[test]
fn cells_are_those_that_a_station_reads_and_writes() {
    let mut held = 0;
    for (_, text) in boards() {
        let page = page(&text);
        let description = Description::load(text.clone()).expect("a board");
        held += description.with(|description| hold_page(&text, &page, description));
    }
    assert!(held > 500, "{held} bits");
}
