//! The incident, shown: a receive buffer that holds a new dump and, after its end record, the tail
//! of an old one; through a gateway's loop over the crate ihex 3.0.0, and through the library's loader.
//! Then the evening: buffer after buffer, with the old light beside the library's.
#![forbid(unsafe_code)]

pub mod evening;
pub mod gateway;
pub mod shown;

use ihex::{marks_len, Color, Light};

/// The address of the window's first place.
pub const FIRST: u32 = 0x2000_0100;
/// How many places the window has.
pub const PLACES: usize = 0x24;

/// What a load leaves. The answer counts the data records, or says why the text was refused.
#[derive(Clone, PartialEq, Eq, Debug)]
pub struct Side {
    pub page: [u8; PLACES],
    /// One bit a place.
    pub marks: [u8; marks_len(PLACES)],
    pub answer: Result<usize, String>,
}

impl Side {
    /// A fresh page with no marks, filled by `load`.
    fn filled<E: ToString>(load: impl FnOnce(&mut [u8], &mut [u8]) -> Result<usize, E>) -> Self {
        let (mut page, mut marks) = ([0; PLACES], [0; marks_len(PLACES)]);
        let answer = load(&mut page, &mut marks).map_err(|why| why.to_string());
        Side {
            page,
            marks,
            answer,
        }
    }
}

/// The gateway's loop over the crate's reader.
pub fn by_crate(text: &[u8], stop_after_eof: bool) -> Side {
    let text = String::from_utf8_lossy(text);
    Side::filled(|page, marks| gateway::fill(&text, stop_after_eof, FIRST, page, marks))
}

/// The library's loader.
pub fn by_port(text: &[u8]) -> Side {
    Side::filled(|page, marks| ihex::load(text, FIRST, page, marks).map(|all| all.data_records))
}

/// The library's light, and what the load of its dump leaves.
pub fn by_light(text: &[u8], light: &mut Light) -> (Color, Side) {
    let mut color = Color::Broken;
    let side = Side::filled(|page, marks| {
        let dumped = light.dump(text, page, marks);
        color = dumped.color;
        dumped.load.map(|all| all.data_records)
    });
    (color, side)
}
