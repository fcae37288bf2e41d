//! The crate ihex 3.0.0, unchanged; or the Rust face in its place, and then `AT_HAND` is false.
#![allow(warnings)]
include!(concat!(env!("OUT_DIR"), "/original.rs"));
