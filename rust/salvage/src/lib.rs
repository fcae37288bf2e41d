//! A noisy capture of Intel HEX to a clean file, and to a list of what was dropped, in words.
#![forbid(unsafe_code)]

use std::io::{Read, Write};

pub use programs::Failure;

/// Reads a capture, writes its clean file, and then the list of what was dropped, a line an entry. It says whether
/// something was dropped. The list is not begun unless all of the clean file is written.
pub fn run(input: impl Read, mut clean: impl Write, mut list: impl Write) -> Result<bool, Failure> {
    let text = programs::read(input)?;
    let saved = ihex::salvage(&text).map_err(|_| Failure::Memory)?;
    drop(text);
    let written = clean.write_all(saved.clean.as_bytes());
    written
        .and_then(|()| clean.flush())
        .map_err(|_| Failure::Write)?;
    for dropped in saved.dropped() {
        writeln!(list, "{dropped}").map_err(|_| Failure::Write)?;
    }
    list.flush().map_err(|_| Failure::Write)?;
    Ok(saved.dropped().len() > 0)
}
