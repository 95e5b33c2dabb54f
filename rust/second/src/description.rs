//! What an accepted text describes.

/// Where a name stands in the text.
#[derive(Clone, Copy, Debug, PartialEq, Eq, Hash)]
pub struct Name {
    pub place: usize,
    pub length: usize,
}

impl Name {
    pub fn of<'t>(&self, text: &'t [u8]) -> &'t [u8] {
        &text[self.place..self.place + self.length]
    }
}

#[derive(Clone, Copy, Debug, PartialEq, Eq, Hash)]
pub enum Part {
    Read,
    Write,
}

pub const PARTS: [Part; 2] = [Part::Read, Part::Write];

#[derive(Clone, Debug, Default, PartialEq, Eq)]
pub struct Description {
    pub parameters: Vec<Parameter>,
    pub registers: Vec<Register>,
    pub variables: Vec<Variable>,
}

#[derive(Clone, Debug, PartialEq, Eq)]
pub struct Parameter {
    pub name: Name,
    pub width: u32,
    pub ranges: Vec<OffsetRange>,
}

/// The offsets from `low` to `high`, both of them included.
#[derive(Clone, Copy, Debug, PartialEq, Eq)]
pub struct OffsetRange {
    pub low: u32,
    pub high: u32,
}

#[derive(Clone, Debug, PartialEq, Eq)]
pub struct Register {
    pub name: Name,
    pub width: u32,
    pub read: Option<Port>,
    pub write: Option<Port>,
}

/// One part of a register: its place, and its mask.
#[derive(Clone, Copy, Debug, PartialEq, Eq)]
pub struct Port {
    pub parameter: usize,
    pub offset: u32,
    pub mask: Mask,
}

/// Bit b of `dots` is set where mask element b is `.`, of `fixed` where it is `0` or `1`, of
/// `ones` where it is `1`.
#[derive(Clone, Copy, Debug, PartialEq, Eq)]
pub struct Mask {
    pub dots: u32,
    pub fixed: u32,
    pub ones: u32,
}

/// The widths that a parameter and its registers may have.
pub const WIDTHS: [u32; 3] = [8, 16, 32];

/// All bits below a width, of the 32 that a number has.
pub fn all_bits(width: u32) -> u32 {
    1u32.checked_shl(width).unwrap_or(0).wrapping_sub(1)
}

#[derive(Clone, Copy, Debug, PartialEq, Eq)]
pub enum Kind {
    Int,
    Signed,
    Bool,
}

#[derive(Clone, Debug, PartialEq, Eq)]
pub struct Variable {
    pub name: Name,
    pub kind: Kind,
    pub width: u32,
    pub volatile: bool,
    pub read: Option<Bits>,
    pub write: Option<Bits>,
}

/// One part of a variable: its pieces, the most significant first.
#[derive(Clone, Debug, PartialEq, Eq)]
pub struct Bits {
    pub trigger: bool,
    pub pieces: Vec<Piece>,
}

/// The bits from `high` down to `low` of a register.
#[derive(Clone, Copy, Debug, PartialEq, Eq)]
pub struct Piece {
    pub register: usize,
    pub high: u32,
    pub low: u32,
}

impl Parameter {
    pub fn has_offset(&self, offset: i32) -> bool {
        let offset = i64::from(offset);
        self.ranges
            .iter()
            .any(|range| i64::from(range.low) <= offset && offset <= i64::from(range.high))
    }
}

impl Description {
    /// The pairs of registers that share a write place, the later one first.
    pub fn beside(&self) -> Vec<(usize, usize)> {
        let place = |register: usize| {
            let port = self.registers[register].write.as_ref();
            port.map(|port| (port.parameter, port.offset))
        };
        let mut pairs = Vec::new();
        for later in 0..self.registers.len() {
            let same = |earlier: &usize| place(later).is_some() && place(*earlier) == place(later);
            pairs.extend((0..later).filter(same).map(|earlier| (later, earlier)));
        }
        pairs
    }
}

impl Register {
    /// A number for this register, with the bits above its width as 0.
    pub fn cut(&self, number: u32) -> u32 {
        number & all_bits(self.width)
    }

    pub fn part(&self, part: Part) -> Option<&Port> {
        match part {
            Part::Read => self.read.as_ref(),
            Part::Write => self.write.as_ref(),
        }
    }
}

impl Variable {
    /// The least and the greatest value of its type.
    pub fn bounds(&self) -> (i64, i64) {
        let size = 1i64 << self.width;
        match self.kind {
            Kind::Int | Kind::Bool => (0, size - 1),
            Kind::Signed => (-size / 2, size / 2 - 1),
        }
    }

    pub fn part(&self, part: Part) -> Option<&Bits> {
        match part {
            Part::Read => self.read.as_ref(),
            Part::Write => self.write.as_ref(),
        }
    }
}

impl Mask {
    /// No mask means a dot for each bit of the width.
    pub fn dots(width: u32) -> Mask {
        Mask {
            dots: all_bits(width),
            fixed: 0,
            ones: 0,
        }
    }

    /// Whether some bit is fixed 0 in one of the two masks and 1 in the other: no number fits both.
    pub fn told_from(&self, other: &Mask) -> bool {
        self.fixed & other.fixed & (self.ones ^ other.ones) != 0
    }

    /// Whether a number has the mask's fixed bits.
    pub fn fits(&self, number: u32) -> bool {
        number & self.fixed == self.ones
    }

    /// A number with the mask's fixed bits in place of its own.
    pub fn obeying(&self, number: u32) -> u32 {
        number & !self.fixed | self.ones
    }

    /// The mask that a bits literal gives, if it has as many elements as the width says; the rightmost
    /// is for bit 0. Of a width over 32, which is refused in any case, the lowest 32 bits are kept.
    pub fn of(elements: &[u8], width: u32) -> Option<Mask> {
        if elements.len() != width as usize {
            return None;
        }
        let mut mask = Mask {
            dots: 0,
            fixed: 0,
            ones: 0,
        };
        for (bit, element) in elements.iter().rev().take(32).enumerate() {
            match element {
                b'.' => mask.dots |= 1 << bit,
                b'0' => mask.fixed |= 1 << bit,
                b'1' => {
                    mask.fixed |= 1 << bit;
                    mask.ones |= 1 << bit;
                }
                _ => {}
            }
        }
        Some(mask)
    }
}

#[cfg(test)]
mod tests {
    use super::*;

    #[test]
    fn the_rightmost_element_is_bit_0() {
        let mask = Mask::of(b"1..0**00", 8).unwrap();
        assert_eq!((mask.dots, mask.fixed, mask.ones), (0x60, 0x93, 0x80));
        let mask = Mask::of(b"1..0**000.......", 16).unwrap();
        assert_eq!((mask.dots, mask.fixed, mask.ones), (0x607F, 0x9380, 0x8000));
        let mask = Mask::of(b"1.............................0*", 32).unwrap();
        assert_eq!(
            (mask.dots, mask.fixed, mask.ones),
            (0x7FFF_FFFC, 0x8000_0002, 0x8000_0000)
        );
    }

    /// The width alone says how long a mask is, whether or not it is a width that ports have.
    #[test]
    fn a_mask_is_as_long_as_its_width() {
        for width in [1, 7, 8, 9, 12, 15, 16, 17, 24, 31, 32, 33, 64] {
            let dots = vec![b'.'; width as usize];
            assert_eq!(Mask::of(&dots, width), Some(Mask::dots(width)), "{width}");
            assert_eq!(Mask::of(&dots[1..], width), None, "{width}");
            assert_eq!(Mask::of(&dots, width - 1), None, "{width}");
        }
    }

    #[test]
    fn bits_below_a_width() {
        for (width, bits) in [
            (0, 0),
            (1, 1),
            (8, 0xFF),
            (16, 0xFFFF),
            (31, 0x7FFF_FFFF),
            (32, u32::MAX),
            (33, u32::MAX),
            (u32::MAX, u32::MAX),
        ] {
            assert_eq!(all_bits(width), bits, "{width}");
        }
    }

    /// Over every pair of masks, two bits of each, in the highest byte of every width: two are told
    /// apart exactly when no number fits both.
    #[test]
    fn told_apart() {
        let elements = |code: usize| [b'0', b'1', b'*', b'.'][code % 4];
        for code in 0..256 {
            let mut one = *b"***.****";
            let mut other = *b"..*.***.";
            one[1] = elements(code);
            other[1] = elements(code / 4);
            one[6] = elements(code / 16);
            other[6] = elements(code / 64);
            for width in WIDTHS {
                let below = vec![b'*'; width as usize - 8];
                let mask = |highest: &[u8]| Mask::of(&[highest, &below].concat(), width).unwrap();
                let [one, other] = [mask(&one), mask(&other)];
                let mut numbers = (0..=255).map(|byte: u32| byte << (width - 8));
                let both = numbers.any(|number| one.fits(number) && other.fits(number));
                assert_eq!(one.told_from(&other), !both, "{one:?} {other:?}");
                assert_eq!(other.told_from(&one), !both);
            }
        }
    }
}
