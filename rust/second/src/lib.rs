//! Devil descriptions and the station, a second time.
//!
//! This crate is written from the papers alone (documents 01, 02, 001 and 003), so that it can be held
//! against the proved implementation: where the two differ, the papers decide.

pub mod board;
mod description;
pub mod frame;
pub mod generate;
mod load;
pub mod pieces;
pub mod replay;
mod rules;
mod sound;
pub mod station;
pub mod stored;
mod syntax;
mod tables;
mod token;
pub mod units;

pub use description::{
    all_bits, Bits, Description, Kind, Mask, Name, OffsetRange, Parameter, Part, Piece, Port,
    Register, Variable, PARTS, WIDTHS,
};
pub use load::{load, outline, Counts, Outline, Refusal, Verdict, TEXT_BYTES};
pub use pieces::{Pieces, Taken};
pub use sound::sound;
pub use station::{
    abandon, begin_calibrated, begin_read, begin_write, confirm, confirm_calibrated, open, Access,
    Answer, Operation, Tables,
};
pub use syntax::{DEPTH, NAME_BYTES, PARAMETERS, PIECES, RANGES, REGISTERS, VARIABLES};
pub use tables::{
    describe, load_into, lookup, tables, Loaded, PARAMETER_WORDS, REGISTER_WORDS, VARIABLE_WORDS,
};
pub use token::{scan, token_line, Lexeme, Sign, Token, Word, RESERVED};
pub use units::Calibration;
