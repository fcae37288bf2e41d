//! The inputs: what a case of each kind is, how it is made smaller, and how cases are made, by rule and by
//! chance.

pub mod asks;
pub mod chance;
pub mod chunks;
pub mod cuts;
pub mod dumps;
pub mod lent;
pub mod lights;
pub mod lights_by_rule;
pub mod lines;
pub mod loads;
pub mod long;
pub mod marks;
pub mod pages;
pub mod replay;
pub mod salvage;
pub mod shrink;
pub mod spelling;
pub mod srecords;
pub mod standing;
pub mod start_records;
pub mod starts;
pub mod streams;
pub mod sums;
pub mod tables;
pub mod texts;
pub mod writes;
