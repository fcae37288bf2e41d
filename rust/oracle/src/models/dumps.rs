//! Dumps that follow each other: the crate reads each as a text of its own.

use ihex_sys::FINISHED;

use crate::models::texts::{flags_behind, shown_row};
use crate::subjects::the_crate::rows;
use crate::subjects::told::Shown;

/// The crate's answers to a text, and to what follows each line that stops its reader, as to a text of its
/// own.
pub fn by_the_crate(text: &[u8], flags: u8) -> Vec<Vec<Shown>> {
    let mut rest = text;
    let mut dumps = Vec::new();
    loop {
        let rows = rows(rest, flags);
        let dump: Vec<Shown> = rows.iter().map(|row| shown_row(rest, row)).collect();
        let last = dump.last().map_or(0, |last| flags_behind(flags, &last.0));
        dumps.push(dump);
        match rows.last() {
            Some((_, place)) if last & FINISHED != 0 => rest = &rest[place.end..],
            _ => return dumps,
        }
    }
}
