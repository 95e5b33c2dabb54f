//! What is asked of the tree itself, read as text: no proof written twice, short functions, documents that name what is
//! there; and the examples of the manual, for the tests that run them.

pub mod documents;
pub mod examples;
pub mod functions;
pub mod manual;
pub mod proofs;
pub mod prose;
pub mod shape;
pub mod tree;
