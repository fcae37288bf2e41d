//! Lights: a plain model over those of loads. What each dump says of the count goes into a list, and each color is found by a
//! search through the whole list.

use ihex_sys::{
    BAD_PLACE, COLOR_BROKEN, COLOR_FIRST, COLOR_GREEN, COLOR_NO_COUNT, COLOR_RESTARTED,
    COLOR_STALE, COUNT_UNKNOWN, REFUSED,
};

use crate::inputs::lights::{Dump, LightCase};
use crate::inputs::tables::Kind;
use crate::models::loads::{self, laid, LoadAnswer, Stated, BOTH_STOPS};
use crate::models::srecords;
use crate::subjects::the_crate::rows;
use crate::subjects::told::Light;

/// How many counts there are.
const COUNTS: u32 = 65_536;
/// How far a count moves on, at most, that moves forward.
const MOST_FORWARD: u32 = 32_767;

/// What a dump says of the count.
#[derive(Clone, Copy, PartialEq, Eq, Debug)]
pub enum Said {
    /// Nothing: it is refused.
    Refused,
    NoCount,
    Count(u16),
}

impl Said {
    /// The count, if it states one.
    fn count(self) -> Option<u16> {
        match self {
            Said::Count(count) => Some(count),
            _ => None,
        }
    }
}

/// What is answered to a dump: what its load answers, the color, and what is known then.
#[derive(Clone, Copy, PartialEq, Eq, Debug)]
pub struct Shown {
    pub load: LoadAnswer,
    pub color: u8,
    pub known: u32,
}

/// What is answered to a dump, and what page and marks hold after it.
#[derive(Clone, PartialEq, Eq)]
pub struct After {
    pub shown: Shown,
    pub page: Vec<u8>,
    pub marks: Vec<u8>,
}

/// The code of setting up a light.
pub fn set_up(light: Light) -> u32 {
    let inside = 0..light.length;
    match inside.contains(&light.high) && inside.contains(&light.low) {
        true => 0,
        false => REFUSED + BAD_PLACE,
    }
}

/// What a dump states in the window of its page, whatever length the light wants.
pub fn stated_in_page(light: Light, dump: &Dump) -> Stated {
    let case = dump.load(light);
    match dump.kind {
        Kind::Intel => loads::stated(loads::RIGHT, &case),
        Kind::SRecords => srecords::stated(srecords::RIGHT, &case),
    }
}

/// What a dump states in the page of a light.
fn stated(light: Light, dump: &Dump) -> Stated {
    match dump.page == light.length {
        true => stated_in_page(light, dump),
        false => Err(LoadAnswer::refused(16, 0, 0, 0)),
    }
}

/// The last byte of those that are stated for a place, if there is one.
pub fn last_byte(places: &[(usize, u8)], place: usize) -> Option<u8> {
    let mut found = places.iter().rev().filter(|(at, _)| *at == place);
    found.next().map(|(_, byte)| *byte)
}

/// What a dump says of the count.
pub fn said(light: Light, stated: &Stated) -> Said {
    match stated {
        Err(_) => Said::Refused,
        Ok(stated) => {
            let byte = |place| last_byte(&stated.places, place);
            match (byte(light.high), byte(light.low)) {
                (Some(high), Some(low)) => Said::Count(u16::from_be_bytes([high, low])),
                _ => Said::NoCount,
            }
        }
    }
}

/// How far one has to count on from a count to come to another.
pub fn moved(from: u16, to: u16) -> u32 {
    let (from, to) = (u32::from(from), u32::from(to));
    match to >= from {
        true => to - from,
        false => COUNTS - from + to,
    }
}

/// The color of a count after a known one.
pub fn color_after(known: u16, count: u16) -> u8 {
    match moved(known, count) {
        0 => COLOR_STALE,
        1..=MOST_FORWARD => COLOR_GREEN,
        _ => COLOR_RESTARTED,
    }
}

/// The count that was stated last, or the one that was known before all dumps.
pub fn latest(begins: Option<u16>, history: &[Said]) -> Option<u16> {
    let mut counts = history.iter().rev().filter_map(|said| said.count());
    counts.next().or(begins)
}

/// The color after the last dump of a history.
pub fn color(begins: Option<u16>, history: &[Said]) -> u8 {
    let (last, before) = history.split_last().expect("a dump");
    match (last, latest(begins, before)) {
        (Said::Refused, _) => COLOR_BROKEN,
        (Said::NoCount, _) => COLOR_NO_COUNT,
        (Said::Count(_), None) => COLOR_FIRST,
        (Said::Count(count), Some(known)) => color_after(known, *count),
    }
}

/// A number as a count, if it is one.
pub fn as_count(known: u32) -> Option<u16> {
    u16::try_from(known).ok()
}

/// What should be answered to each dump of a row, and what page and marks should hold after it.
pub fn model(case: &LightCase) -> Vec<After> {
    let begins = case.known.and_then(as_count);
    let (mut history, mut found) = (Vec::new(), Vec::new());
    let (mut page, mut marks) = (Vec::new(), Vec::new());
    for dump in &case.dumps {
        dump.prepare(&mut page, &mut marks);
        let stated = stated(case.light, dump);
        history.push(said(case.light, &stated));
        let load = laid(stated, loads::RIGHT.mark, &mut page, &mut marks);
        let known = latest(begins, &history);
        found.push(After {
            shown: Shown {
                load,
                color: color(begins, &history),
                known: known.map_or(COUNT_UNKNOWN, u32::from),
            },
            page: page.clone(),
            marks: marks.clone(),
        });
    }
    found
}

/// The lines of a text through the one at which its load stops, from the answer of that load.
pub fn read_part(kind: Kind, text: &[u8], load: LoadAnswer) -> &[u8] {
    let last = match (load.code, kind) {
        (0, Kind::Intel) => rows(text, BOTH_STOPS).last().map(|(_, place)| place.line),
        (0, Kind::SRecords) => srecords::end_line(text),
        _ => Some(load.line).filter(|&line| line > 0),
    };
    let lines = text.split_inclusive(|&byte| byte == b'\n');
    let read = last.map(|n| lines.take(n).map(<[u8]>::len).sum());
    &text[..read.unwrap_or(text.len())]
}
