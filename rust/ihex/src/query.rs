//! Asking: one byte of a text without a page, which the crate does not have.

use crate::loader::LoadError;
use crate::reader::{LineError, ReaderError};
use crate::stranger;

/// Asks a text of Intel HEX for the byte at an address, without a page. Any address may be asked for.
///
/// It is `Some` with the byte if a data record before the end record states one there; if more than one does, it is
/// the last one's. It is `None` if the text is accepted and none does.
///
/// A text that [`load`](crate::load) refuses for one of its lines, for its starts or for its missing end record is
/// refused here too, with the same refusal, whatever the address is. So a byte that stands before a refused line is not
/// returned. There is no window: [`LoadError::BadWindow`] and [`LoadError::OutsideWindow`] are never returned.
///
/// Where a record's bytes lie is as in [`load`](crate::load). If `load` accepts the text in some window, then the byte of
/// each place that is marked is the one that is returned for its address, and for a place that is not marked it is `None`.
///
/// The text is read once, and what follows its end record is not read. Nothing is allocated.
///
/// ```
#[doc = include_str!("../examples/ask.rs")]
/// ```
pub fn ask<T>(text: &T, address: u32) -> Result<Option<u8>, LoadError>
where
    T: AsRef<[u8]> + ?Sized,
{
    let (mut line, mut a, mut b) = (0, 0, 0);
    let code = ihex_sys::ask(text.as_ref(), address, &mut line, &mut a, &mut b);
    match code.wrapping_sub(ihex_sys::REFUSED) {
        13 => Err(LoadError::MissingEndOfFileRecord),
        21 => Err(LoadError::StartConflict { line }),
        _ if code == 0 => Ok(Some(a as u8)),
        _ if code == ihex_sys::NOT_STATED => Ok(None),
        _ => match ReaderError::told(code, a, b) {
            Some(error) => Err(LoadError::Line(LineError { line, error })),
            None => stranger(code),
        },
    }
}
