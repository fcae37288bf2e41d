//! What is compared: the crate, the port, the face and the program `replay`, and how each is asked.
//! `told` has the one form that their answers are brought to.

pub mod face;
pub mod port;
pub mod program;
pub mod srecords;
pub mod the_crate;
pub mod told;
