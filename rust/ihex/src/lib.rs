//! Intel HEX and Motorola S-records read, written and loaded, over the proved library `libihex.a`.
//!
//! The names and shapes are those of the crate ihex 3.0.0: a program that uses it changes one line
//! of its `Cargo.toml`. One name has another shape: [`ReaderError::ContainsInvalidCharacters`] carries
//! a place, and the pattern `ContainsInvalidCharacters { .. }` builds with the
//! crate and with this.
//!
//! It adds what the crate lacks: input that is not UTF-8 ([`ByteReader`],
//! [`Record::from_record_bytes`]), line numbers and columns ([`Reader::numbered`],
//! [`ReaderError::column`]), a text that comes in chunks ([`ChunkReader`]), the loading of a text
//! into a page with marks, and its start ([`load`], [`Marks`], [`Start`]), a load that is fed dump after dump as the chunks
//! come ([`Intake`], [`Dumps`]), the loads of two owners into one pool ([`Table`]), the writing of such a page
//! ([`write_page`]), one byte of a text without a page ([`ask`]), the panel's light ([`Light`]), what can be saved of a
//! noisy capture ([`salvage`](fn@salvage)), and S-records ([`srec`]).
//!
//! No function panics, whatever its arguments.
//!
//! # A line to a record, and back
//!
//! ```
#![doc = include_str!("../examples/record.rs")]
//! ```
//!
//! # A text
//!
//! ```
#![doc = include_str!("../examples/text.rs")]
//! ```
#![forbid(unsafe_code)]
#![warn(missing_docs)]

mod checksum;
mod chunks;
mod dumps;
mod intake;
mod light;
mod loader;
mod marks;
mod page;
mod query;
mod reader;
mod record;
mod salvage;
pub mod srec;
mod table;
mod writer;

pub use checksum::*;
pub use chunks::*;
pub use dumps::*;
pub use intake::*;
pub use light::*;
pub use loader::*;
pub use marks::*;
pub use page::*;
pub use query::*;
pub use reader::*;
pub use record::*;
pub use salvage::*;
pub use table::*;
pub use writer::*;

/// Ends the program where the archive answers a code that the function it calls does not have, so
/// that nothing is made up. The archive that is built from this source answers none.
fn stranger(code: u32) -> ! {
    eprintln!("ihex: libihex.a answered {code}, which this build does not know");
    std::process::abort()
}
