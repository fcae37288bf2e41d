//! The models: what should be answered, from the crate's answers and the rules; for S-records from the rules
//! alone. A model asks neither the port nor the face.

pub mod asks;
pub mod chunks;
pub mod dumps;
pub mod lights;
pub mod lines;
pub mod loads;
pub mod pages;
pub mod replay;
pub mod salvage;
pub mod srecords;
pub mod streams;
pub mod tables;
pub mod texts;
pub mod writes;
