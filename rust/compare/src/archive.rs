//! The calls that the soak holds to the second implementation's.

use desfanuk::raw;
use second::generate::TableSet;
use second::replay::Call;
use second::{Calibration, Loaded, Taken};

use crate::both::lent;
use crate::proved::{self, Lent};

/// The proved calls; a test puts a wrong one in the place of one of them.
#[derive(Clone, Copy)]
pub struct Archive {
    pub load: fn(&[u8], &mut TableSet) -> Loaded,
    pub take_piece: fn(&TableSet, &mut [u8], &mut [u64], &[u8]) -> Taken,
    pub end_pieces: fn(&[u8], &mut [u64], &mut TableSet) -> Loaded,
    pub sound: fn(&TableSet) -> bool,
    pub station: fn(Lent, &Call, Option<Calibration>, &mut [i64]) -> u64,
}

impl Archive {
    pub const PROVED: Archive = Archive {
        load: |text, set| {
            let [parameters, registers, variables] = each(set);
            proved::load(text, parameters, registers, variables)
        },
        take_piece: |set, store, taken, piece| {
            proved::take_piece(proved::words(lent(set)), store, taken, piece)
        },
        end_pieces: |store, taken, set| {
            let [parameters, registers, variables] = each(set);
            proved::end_pieces(store, taken, parameters, registers, variables)
        },
        sound: |set| raw::sound(proved::words(lent(set))),
        station: proved::station,
    };
}

/// The three tables of a set, to be written.
pub fn each(set: &mut TableSet) -> [&mut [u32]; 3] {
    [&mut set.parameters, &mut set.registers, &mut set.variables]
}
