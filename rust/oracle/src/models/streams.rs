//! A line on which dump after dump comes: a plain model of the rule, over those of loads. It has the whole stretch between
//! two pauses before it, and no chunks.

use ihex_sys::COUNT_UNKNOWN;

use crate::inputs::loads::LoadCase;
use crate::inputs::marks::packed_length;
use crate::inputs::streams::{Piece, StreamCase};
use crate::inputs::tables::Kind;
use crate::models::lights::{color, latest, read_part, said, Said};
use crate::models::loads::{self, laid, LoadAnswer, Stated};
use crate::models::srecords;
use crate::subjects::the_crate;

/// What happens on a line.
#[derive(Clone, PartialEq, Eq, Debug)]
pub enum Event {
    /// What was skipped has come to its end record.
    Passed,
    /// A dump is decided: what its load answers, the color of the light after it, what the light knows, and what page and marks
    /// hold after the commit.
    Decided {
        load: LoadAnswer,
        color: u8,
        known: u32,
        page: Vec<u8>,
        marks: Vec<u8>,
    },
    /// A pause, and no dump to end.
    Quiet,
}

/// The events, each with how many bytes have come before it.
pub type Events = Vec<(usize, Event)>;

/// The beginning of a stretch, up to the first empty line that is none.
fn blank(bytes: &[u8]) -> usize {
    let empty = |line: &&[u8]| matches!(*line, b"\n" | b"\r\n");
    let lines = bytes.split_inclusive(|&byte| byte == b'\n');
    lines.take_while(empty).map(<[u8]>::len).sum()
}

/// Whether a line, with its LF, is an end record.
fn ends(kind: Kind, line: &[u8]) -> bool {
    let line = match line.strip_suffix(b"\n") {
        None => return false,
        Some(line) => line.strip_suffix(b"\r").unwrap_or(line),
    };
    match kind {
        Kind::Intel => matches!(the_crate::read(line), Ok(original::Record::EndOfFile)),
        Kind::SRecords => {
            let said = srecords::read(srecords::RIGHT, line);
            said.map_or(false, |said| matches!(said.kind, 7..=9))
        }
    }
}

/// How many bytes come through the first end record, if there is one that has come whole.
fn through_end(kind: Kind, bytes: &[u8]) -> Option<usize> {
    let mut through = 0;
    for line in bytes.split_inclusive(|&byte| byte == b'\n') {
        through += line.len();
        if ends(kind, line) {
            return Some(through);
        }
    }
    None
}

/// A line that is listened to.
struct Line<'a> {
    case: &'a StreamCase,
    /// What each dump so far has said of the count.
    history: Vec<Said>,
    page: Vec<u8>,
    marks: Vec<u8>,
    events: Events,
    /// How many bytes have come before the stretch.
    before: usize,
}

impl Line<'_> {
    /// What a text states in the window.
    fn stated(&self, text: &[u8]) -> Stated {
        let light = self.case.light;
        let case = LoadCase::new(text.to_vec(), light.first, light.length, 0);
        match self.case.kind {
            Kind::Intel => loads::stated(loads::RIGHT, &case),
            Kind::SRecords => srecords::stated(srecords::RIGHT, &case),
        }
    }

    /// A dump that states this is decided, when so many bytes of the stretch have come.
    fn decide(&mut self, at: usize, stated: Stated) {
        self.history.push(said(self.case.light, &stated));
        let load = laid(stated, loads::RIGHT.mark, &mut self.page, &mut self.marks);
        let known = latest(None, &self.history);
        let event = Event::Decided {
            load,
            color: color(None, &self.history),
            known: known.map_or(COUNT_UNKNOWN, u32::from),
            page: self.page.clone(),
            marks: self.marks.clone(),
        };
        self.events.push((self.before + at, event));
    }

    /// What happens in a stretch that begins with a text, or at an unknown place, and whether a pause ends it.
    fn stretch(&mut self, bytes: &[u8], known: bool, pause: bool) {
        let (mut at, mut skips) = (0, !known);
        loop {
            if skips {
                match through_end(self.case.kind, &bytes[at..]) {
                    None => break,
                    Some(used) => at += used,
                }
                self.events.push((self.before + at, Event::Passed));
            }
            at += blank(&bytes[at..]);
            let rest = &bytes[at..];
            if matches!(rest, b"" | b"\r") {
                break;
            }
            let stated = self.stated(rest);
            let load = match &stated {
                Ok(stated) => LoadAnswer::accepted(stated.records, stated.start),
                Err(refused) => *refused,
            };
            let read = read_part(self.case.kind, rest, load);
            let has_come = load.code != ihex_sys::REFUSED + 13 && read.ends_with(b"\n");
            if !has_come {
                if pause {
                    self.decide(bytes.len(), stated);
                    self.before += bytes.len();
                    return;
                }
                break;
            }
            at += read.len();
            skips = stated.is_err();
            self.decide(at, stated);
        }
        self.before += bytes.len();
        if pause {
            self.events.push((self.before, Event::Quiet));
        }
    }
}

/// What should happen on a line.
pub fn model(case: &StreamCase) -> Events {
    let length = case.light.length;
    let mut line = Line {
        case,
        history: vec![],
        page: vec![case.old; length],
        marks: vec![case.old; packed_length(length)],
        events: vec![],
        before: 0,
    };
    let (mut bytes, mut known) = (Vec::new(), case.known);
    for piece in &case.pieces {
        match piece {
            Piece::Chunk(chunk) => bytes.extend(chunk),
            Piece::Pause => {
                line.stretch(&bytes, known, true);
                bytes.clear();
                known = true;
            }
        }
    }
    line.stretch(&bytes, known, false);
    line.events
}
