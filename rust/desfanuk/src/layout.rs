//! What the tables say of an accepted description: where a register lies and which of its bits are
//! fixed, and which bits are a variable's.

use std::ops::RangeInclusive;

use crate::description::{PARAMETER_ENTRY, REGISTER_ENTRY};
use crate::{Description, Direction, Number, Variable};

/// The type of a variable, apart from its width.
#[derive(Clone, Copy, Debug, PartialEq, Eq)]
pub enum Kind {
    Int,
    SignedInt,
    Bool,
}

/// The part of a register that is read, or the one that is written: where it lies, and its mask. A
/// bit that is neither of `dots` nor of `fixed` is a `*`.
#[derive(Clone, Copy, Debug, PartialEq, Eq)]
pub struct RegisterPart {
    pub parameter: usize,
    pub offset: u8,
    /// The bits that variables have.
    pub dots: Number,
    /// The bits that the mask fixes, at 0 or 1.
    pub fixed: Number,
    /// Those that it fixes at 1.
    pub ones: Number,
}

/// The part of a variable that is read, or the one that is written: its bit list.
#[derive(Clone, Debug, PartialEq, Eq)]
pub struct VariablePart {
    /// Whether each access of this part acts on the board.
    pub is_trigger: bool,
    /// Left to right: the first has the most significant bits.
    pub pieces: Vec<Piece>,
}

/// The bits of a register from `high` down to `low`.
#[derive(Clone, Copy, Debug, PartialEq, Eq)]
pub struct Piece {
    pub register: usize,
    pub high: usize,
    pub low: usize,
}

/// Words of an entry in front of its read part, and words of a part.
const BEFORE_REGISTER_PARTS: usize = 3;
const REGISTER_PART: usize = 6;
const BEFORE_VARIABLE_PARTS: usize = 5;
const VARIABLE_PART: usize = 27;

impl Description {
    /// The ranges of offsets that a parameter's port has, as the text gives them, if there is a
    /// parameter of this index.
    pub fn offsets(&self, parameter: usize) -> Option<Vec<RangeInclusive<u8>>> {
        let words = entry(self.tables().words().parameters, PARAMETER_ENTRY, parameter)?;
        let offset = |word: u32| u8::try_from(word).expect("an offset");
        let ranges = words[4..].chunks(2).take(words[3] as usize);
        Some(ranges.map(|r| offset(r[0])..=offset(r[1])).collect())
    }

    /// Where a register is read or written, and its mask, if there is a register of this index and it
    /// has that part.
    pub fn register_part(&self, register: usize, part: Direction) -> Option<RegisterPart> {
        let words = entry(self.tables().words().registers, REGISTER_ENTRY, register)?;
        let words = &words[start(part, BEFORE_REGISTER_PARTS, REGISTER_PART)..];
        (words[0] == 1).then(|| RegisterPart {
            parameter: words[1] as usize,
            offset: u8::try_from(words[2]).expect("an offset"),
            dots: words[3],
            fixed: words[4],
            ones: words[5],
        })
    }
}

impl Variable<'_> {
    /// The bits that a read or a write of it is about, if it has that part.
    pub fn part(self, part: Direction) -> Option<VariablePart> {
        let words = &self.words()[start(part, BEFORE_VARIABLE_PARTS, VARIABLE_PART)..];
        let pieces = words[3..].chunks(3).take(words[2] as usize);
        (words[0] == 1).then(|| VariablePart {
            is_trigger: words[1] == 1,
            pieces: pieces.map(piece).collect(),
        })
    }

    /// Its type, apart from the width.
    pub fn kind(self) -> Kind {
        match self.words()[2] {
            0 => Kind::Int,
            1 => Kind::SignedInt,
            2 => Kind::Bool,
            other => unreachable!("loading stores a kind, not {other}"),
        }
    }

    /// How many bits it has: 1 to 32.
    pub fn width(self) -> usize {
        self.words()[3] as usize
    }

    /// Whether the board may change it by itself.
    pub fn is_volatile(self) -> bool {
        self.words()[4] == 1
    }
}

/// The words of an entry, if it is in use.
pub(crate) fn entry(table: &[u32], size: usize, index: usize) -> Option<&[u32]> {
    (index < table[0] as usize).then(|| &table[1 + size * index..][..size])
}

/// Where a part starts in an entry: the read part stands first.
fn start(part: Direction, before: usize, size: usize) -> usize {
    match part {
        Direction::Read => before,
        Direction::Write => before + size,
    }
}

fn piece(words: &[u32]) -> Piece {
    Piece {
        register: words[0] as usize,
        high: words[1] as usize,
        low: words[2] as usize,
    }
}
