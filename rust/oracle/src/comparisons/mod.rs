//! The comparisons: each file has the checks of one thing, by the port and by the face, and the kinds of
//! comparison that run them. `all` has the kinds in the order in which they are run.

pub mod all;
pub mod asks;
pub mod chunks;
pub mod dumps;
pub mod forms;
pub mod joined;
pub mod lent;
pub mod lights;
pub mod lines;
pub mod loads;
pub mod long;
pub mod pages;
pub mod replay;
pub mod run;
pub mod salvage;
pub mod seen;
pub mod srecords;
pub mod stored;
pub mod streams;
pub mod sums;
pub mod tables;
pub mod texts;
pub mod writes;
