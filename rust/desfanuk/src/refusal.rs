//! The refusals of documents 01 and 02, each with its number and the words of docs/REFUSALS.md.

use std::error::Error;
use std::fmt;

/// Declares the refusals once: the name, the number, and when it is given.
macro_rules! refusals {
    ($($name:ident = $number:literal, $words:literal;)*) => {
        /// Why a description or a call was refused. Only one is ever answered, and every refused
        /// call leaves all as it was, but that 52 and 54 end the read.
        #[derive(Clone, Copy, Debug, PartialEq, Eq, PartialOrd, Ord, Hash)]
        #[non_exhaustive]
        #[repr(u8)]
        pub enum Refusal {
            $(#[doc = $words] $name = $number,)*
        }

        impl Refusal {
            /// Every refusal, the lowest number first.
            pub const ALL: &'static [Refusal] = &[$(Refusal::$name),*];

            /// When it is given.
            pub fn words(self) -> &'static str {
                match self {
                    $(Refusal::$name => $words,)*
                }
            }
        }
    };
}

refusals! {
    ShortTable = 1, "a lent table or store is shorter than its stated size";
    LongText = 2, "the text has more than 8,192 bytes";
    BadToken = 3, "no token begins here; a block comment or a bits literal is not closed; a bits \
        literal is empty or holds another character than `0 1 * .`; a number is over \
        2,147,483,647";
    Grammar = 4, "no text of the grammar begins with the tokens up to this one; the end of the \
        text counts as a token";
    Size = 5, "a size is passed: a name of more than 64 bytes; the 17th parameter, the 17th range \
        of a parameter, the 65th register, the 129th variable, the 9th piece of a bit list; the \
        17th parenthesis or minus around a number";
    Declared = 6, "the name is already declared: one name space for the device, parameters, \
        registers and variables";
    Undeclared = 7, "a port names no parameter, or a piece no register, declared earlier";
    Offset = 8, "an offset divides by zero, leaves the range of 32 bits, or is not in the \
        parameter's set; in a parameter, an offset over 255 or a range going down";
    Ports = 9, "a bad pairing of ports; a mask that has not as many elements as the register's \
        stated width; two masks for one part; a mask for a missing part";
    Place = 10, "the part's parameter and offset already serve that part of an earlier register; \
        of two write parts, unless some bit is fixed 0 in one mask and 1 in the other";
    Bits = 11, "a bit from the register's width up; a rising range; a bit twice in one part; a bit \
        that is not a dot in that part's mask; a register without that part; a bad pairing of bit \
        lists; a bare list with neither part; over 32 bits";
    Width = 12, "the width of a parameter or register is not 8, 16 or 32; a register's is not that \
        of the parameter of each of its ports; a type's width is unlike the bits; the parts' widths \
        differ; a `bool` has not one bit";
    Behaviour = 13, "`volatile` or `trigger` is repeated for a part, or given for a missing part";
    Mapped = 14, "a bit is already mapped in that part by an earlier variable";
    Trigger = 15, "a register part holds bits of two variables, at least one of them trigger for \
        that part";
    Unmapped = 16, "a dot of some register part is mapped in that part by no variable";
    Unsound = 20, "the tables are short; a stored count, reference or flag is out of its range; an \
        unused word is not zero; or what they describe breaks one of rules 8 to 16 or a size \
        (recorded names aside)";
    ShortRecord = 21, "the power-on list, the record or the marks are shorter than the tables need";
    BadOperation = 22, "the operation in hand is not one that these tables allow (variable, part, \
        step or value)";
    Busy = 23, "begin while an operation is in hand";
    Idle = 24, "confirm or abandon with none in hand";
    NoVariable = 25, "no such variable";
    NoPart = 26, "the variable has not that part";
    TooLow = 27, "the value is below the least of the variable's type";
    HalfWritten = 28, "the variable is half-written";
    Contradicted = 52, "the number read differs from a fixed bit of its register's read mask";
    NoUnits = 53, "gain or offset is not finite, or the variable is a `bool`";
    NotFinite = 54, "the product or the sum is not finite; given in place of done";
    TooHigh = 55, "the value is above the greatest of the variable's type";
}

impl Refusal {
    /// Its number in documents 01 and 02.
    pub fn number(self) -> u8 {
        self as u8
    }

    /// The refusal of this number.
    pub fn of(number: u8) -> Option<Refusal> {
        Refusal::ALL
            .iter()
            .copied()
            .find(|refusal| refusal.number() == number)
    }
}

impl fmt::Display for Refusal {
    fn fmt(&self, f: &mut fmt::Formatter<'_>) -> fmt::Result {
        write!(f, "refused ({}): {}", self.number(), self.words())
    }
}

impl Error for Refusal {}
