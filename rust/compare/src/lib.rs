//! The proved implementation, linked from its archive, and what holds it against the second one.

pub mod archive;
pub mod both;
pub mod lives;
pub mod plot;
pub mod programs;
pub mod proved;
pub mod seen;
pub mod soak;
pub mod station;
pub mod texts;
