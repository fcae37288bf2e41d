//! The crate ihex 3.0.0 against the port: inputs, comparisons, and the search for a small input on
//! which the two disagree. S-records, which the crate does not have, are held to a plain model.
//!
//! The files stand in rooms, and each room uses only those above it:
//!
//! | Room | Holds | Uses |
//! |---|---|---|
//! | `subjects` | what is compared: the crate, the port, the face, the program | |
//! | `inputs` | cases, how they are made, and how they are made smaller | `subjects` |
//! | `models` | what should be answered | `inputs`, `subjects` |
//! | `comparisons` | the checks, and the kinds of comparison that run them | `models`, `inputs`, `subjects` |
//! | `wrong` | ports, faces and programs that are wrong in one point each | `models`, `inputs`, `subjects` |
//!
//! Inputs and models ask neither the port, nor the face, nor the program. No file uses itself by way of
//! others. `tests/rooms.rs` holds all of this. What is new gets a file in each room, and a line in each list
//! of `comparisons::all` and `wrong::all`.
#![forbid(unsafe_code)]

pub mod comparisons;
pub mod inputs;
pub mod models;
pub mod subjects;
pub mod wrong;
