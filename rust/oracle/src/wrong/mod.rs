//! Ports, faces and programs that are wrong in one point each. The comparisons must find every one. `all` has
//! the wrong ports in the order in which they are tried.

pub mod all;
pub mod asks;
pub mod chunk_calls;
pub mod chunks;
pub mod dumps;
pub mod lights;
pub mod lines;
pub mod loads;
pub mod marks;
pub mod named;
pub mod pages;
pub mod panels;
pub mod places;
pub mod replay;
pub mod salvage;
pub mod srecords;
pub mod starts;
pub mod streams;
pub mod sums;
pub mod tables;
pub mod texts;
pub mod writes;
