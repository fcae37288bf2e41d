//! Captures that stand for an undamaged text, line by line, and undamaged texts with one byte wrong.

use crate::inputs::chance::Chance;
use crate::inputs::lines::{recase, TELLING};
use crate::inputs::salvage::dump;
use crate::inputs::shrink::{readable, shorter, smaller_number, smaller_text, with_each, Case};
use crate::inputs::spelling::spelt;

/// What stands in the capture for a part of the undamaged text.
#[derive(Clone)]
pub enum Piece {
    /// A line: itself, or in other letters.
    Line {
        undamaged: Vec<u8>,
        captured: Vec<u8>,
    },
    /// Lines: one or more that are refused.
    Stretch {
        undamaged: Vec<Vec<u8>>,
        refused: Vec<Vec<u8>>,
    },
    /// Nothing: an empty line.
    Gained,
    /// An empty line: nothing.
    Lost,
}

impl Piece {
    pub fn undamaged(&self) -> Vec<Vec<u8>> {
        match self {
            Piece::Line { undamaged, .. } => vec![undamaged.clone()],
            Piece::Stretch { undamaged, .. } => undamaged.clone(),
            Piece::Gained => vec![],
            Piece::Lost => vec![vec![]],
        }
    }

    pub fn captured(&self) -> Vec<Vec<u8>> {
        match self {
            Piece::Line { captured, .. } => vec![captured.clone()],
            Piece::Stretch { refused, .. } => refused.clone(),
            Piece::Gained => vec![vec![]],
            Piece::Lost => vec![],
        }
    }

    /// The same for fewer lines, with fewer lines.
    fn smaller(&self) -> Vec<Self> {
        let mut found = Vec::new();
        if let Piece::Stretch { undamaged, refused } = self {
            for undamaged in shorter(undamaged) {
                let refused = refused.clone();
                found.push(Piece::Stretch { undamaged, refused });
            }
            for refused in shorter(refused).into_iter().filter(|one| !one.is_empty()) {
                let undamaged = undamaged.clone();
                found.push(Piece::Stretch { undamaged, refused });
            }
        }
        found
    }
}

#[derive(Clone)]
pub struct StandingCase {
    /// The parts of the text through its end record, if it has one.
    pub pieces: Vec<Piece>,
    /// After how many parts the capture broke off, and with how many bytes of the line that came then; if it did.
    pub broken: Option<(usize, usize)>,
    /// The line ends of the undamaged text and of the capture.
    pub ends: [&'static [u8]; 2],
    /// What follows the end record in each.
    pub tails: [Vec<u8>; 2],
}

impl StandingCase {
    /// The lines of a text with its line ends, and after them what follows.
    fn text(lines: impl Iterator<Item = Vec<u8>>, end: &[u8], after: &[u8]) -> Vec<u8> {
        let mut text: Vec<u8> = lines.flat_map(|line| [&line, end].concat()).collect();
        text.extend(after);
        text
    }

    pub fn undamaged(&self) -> Vec<u8> {
        let lines = self.pieces.iter().flat_map(Piece::undamaged);
        StandingCase::text(lines, self.ends[0], &self.tails[0])
    }

    pub fn captured(&self) -> Vec<u8> {
        let end = self.ends[1];
        let (whole, bytes) = match self.broken {
            None => (self.pieces.len(), None),
            Some((whole, bytes)) => (whole, Some(bytes)),
        };
        let lines = self.pieces.iter().take(whole).flat_map(Piece::captured);
        match bytes {
            None => StandingCase::text(lines, end, &self.tails[1]),
            Some(bytes) => {
                let next = self.pieces.iter().skip(whole).flat_map(Piece::undamaged);
                let next = next.map(|line| [&line, end].concat()).next();
                let mut begun = next.unwrap_or_default();
                begun.truncate(bytes);
                StandingCase::text(lines, end, &begun)
            }
        }
    }

    /// The lines that stand for others.
    pub fn refused(&self) -> Vec<&Vec<u8>> {
        let mut found = Vec::new();
        for piece in &self.pieces {
            if let Piece::Stretch { refused, .. } = piece {
                found.extend(refused);
            }
        }
        found
    }
}

impl Case for StandingCase {
    fn smaller(&self) -> Vec<Self> {
        let mut found = with_each!(
            self,
            pieces in shorter(&self.pieces),
            broken in self.broken.into_iter().flat_map(|(whole, bytes)| {
                let fewer = smaller_number(bytes).into_iter();
                fewer.map(move |bytes| Some((whole, bytes)))
            }),
            tails in [[vec![], vec![]]].into_iter().filter(|none| *none != self.tails),
        );
        for (at, piece) in self.pieces.iter().enumerate() {
            for smaller in piece.smaller() {
                let mut other = self.clone();
                other.pieces[at] = smaller;
                found.push(other);
            }
        }
        found
    }

    fn size(&self) -> usize {
        self.undamaged().len() + self.captured().len()
    }

    fn show(&self) -> String {
        let (is, was) = (self.captured(), self.undamaged());
        format!("capture {} of {}", readable(&is), readable(&was))
    }
}

/// A line with a right checksum that is not a record: of a type that is not named, with a length byte that is wrong, or
/// with a payload that its type cannot have.
fn summed(chance: &mut Chance) -> Vec<u8> {
    match chance.under(3) {
        0 => spelt(&[0, 0, 0, 6 + chance.under(250) as u8]),
        1 => spelt(&[2, chance.byte(), 0, 0, chance.byte()]),
        _ => spelt(&[1, 0, 0, 1 + chance.under(5) as u8, chance.byte()]),
    }
}

/// A line that is refused, made of a record's line. A digit of another value makes its checksum wrong, and a line that
/// lost or gained one has an odd number of them.
fn refused(line: &[u8], chance: &mut Chance) -> Vec<u8> {
    let mut line = line.to_vec();
    let at = chance.from_to(1, line.len() - 1);
    match chance.under(8) {
        0 | 1 => {
            let digits = b"0123456789ABCDEF".iter().copied();
            let other = digits.filter(|digit| !digit.eq_ignore_ascii_case(&line[at]));
            let other: Vec<u8> = other.collect();
            line[at] = chance.one_of(&other);
        }
        2 => line[at] = chance.one_of(b"GgOo:/@` +-x\0\x7F\x80\xC3"),
        3 => line[0] = chance.one_of(b";0 xS\xBA"),
        4 => drop(line.remove(at)),
        5 => line.insert(at, chance.one_of(b"0123456789abcdef")),
        6 => line.truncate(at),
        _ => return summed(chance),
    }
    line
}

/// A line that is noise.
fn noise(chance: &mut Chance) -> Vec<u8> {
    let mut line = vec![chance.one_of(b"x#; \0\xFF")];
    let n = chance.under(20);
    line.extend((0..n).map(|_| chance.one_of(&TELLING)));
    line.retain(|byte| !b"\r\n".contains(byte));
    line
}

/// A line that is captured as it is.
fn same(line: Vec<u8>) -> Piece {
    let captured = line.clone();
    let undamaged = line;
    Piece::Line {
        undamaged,
        captured,
    }
}

/// What stands for a line that is not the end record: a refused one, or the line.
fn piece(line: Vec<u8>, chance: &mut Chance) -> Piece {
    if !chance.once_in(4) {
        return same(line);
    }
    let refused = vec![refused(&line, chance)];
    let undamaged = vec![line];
    Piece::Stretch { undamaged, refused }
}

/// With more noise in a stretch, and a line in other letters, at times.
fn stray(piece: &mut Piece, chance: &mut Chance) {
    match piece {
        Piece::Stretch { refused, .. } => {
            while chance.once_in(6) {
                refused.push(noise(chance));
            }
        }
        Piece::Line { captured, .. } if chance.once_in(8) => recase(captured, chance),
        _ => {}
    }
}

/// At times a line after a stretch is made a part of it.
fn melt(pieces: &mut Vec<Piece>, chance: &mut Chance) {
    let mut at = 1;
    while at < pieces.len() {
        if let (Piece::Stretch { .. }, true) = (&pieces[at - 1], chance.once_in(2)) {
            if let Piece::Line { undamaged, .. } = pieces[at].clone() {
                if let Piece::Stretch { undamaged: all, .. } = &mut pieces[at - 1] {
                    all.push(undamaged);
                    pieces.remove(at);
                    continue;
                }
            }
        }
        at += 1;
    }
}

/// What follows an end record: nothing, or the rest of another dump.
fn tail(chance: &mut Chance) -> Vec<u8> {
    if chance.once_in(2) {
        return vec![];
    }
    let lines = dump(chance);
    lines.join(&b'\n')
}

/// A text, and a capture of it in which each damaged line stands for one line: the document's own form.
pub fn line_for_line(chance: &mut Chance) -> StandingCase {
    let mut lines = dump(chance);
    let end = lines.pop().unwrap_or_default();
    let lines = lines.into_iter();
    let mut pieces: Vec<Piece> = lines.map(|line| piece(line, chance)).collect();
    pieces.push(same(end));
    let tail = tail(chance);
    StandingCase {
        pieces,
        broken: None,
        ends: [b"\n"; 2],
        tails: [tail.clone(), tail],
    }
}

/// A text, and a capture that stands for it in all that is allowed: stretches for stretches, empty lines more and less,
/// other letters, other line ends, other text after the end record, and broken off at any byte.
pub fn standing(chance: &mut Chance) -> StandingCase {
    let mut lines = dump(chance);
    let end = lines.pop().unwrap_or_default();
    let mut pieces: Vec<Piece> = Vec::new();
    for line in lines {
        pieces.push(piece(line, chance));
        if chance.once_in(8) {
            pieces.push(match chance.once_in(2) {
                true => Piece::Gained,
                false => Piece::Lost,
            });
        }
        if chance.once_in(12) {
            let refused = vec![noise(chance)];
            let undamaged = vec![];
            pieces.push(Piece::Stretch { undamaged, refused });
        }
    }
    melt(&mut pieces, chance);
    for piece in &mut pieces {
        stray(piece, chance);
    }
    let ended = !chance.once_in(8);
    if ended {
        pieces.push(same(end));
    }
    let broken = chance
        .once_in(3)
        .then(|| (chance.under(pieces.len() + 1), chance.under(46)));
    let mut tails = [vec![], vec![]];
    if ended {
        tails = [tail(chance), tail(chance)];
    }
    let ends = [b"\n".as_slice(), b"\r\n"];
    StandingCase {
        pieces,
        broken,
        ends: [chance.one_of(&ends), chance.one_of(&ends)],
        tails,
    }
}

/// A text in which a byte became another, or came or went.
#[derive(Clone)]
pub struct OneByteCase {
    pub text: Vec<u8>,
    pub at: usize,
    /// Whether the byte there is lost.
    pub lost: bool,
    /// What came, if something did.
    pub new: Option<u8>,
}

impl OneByteCase {
    pub fn captured(&self) -> Vec<u8> {
        let at = self.at.min(self.text.len());
        let after = (at + usize::from(self.lost)).min(self.text.len());
        let new: Vec<u8> = self.new.into_iter().collect();
        [&self.text[..at], &new, &self.text[after..]].concat()
    }
}

impl Case for OneByteCase {
    fn smaller(&self) -> Vec<Self> {
        with_each!(
            self,
            text in smaller_text(&self.text),
            at in smaller_number(self.at),
        )
    }

    fn size(&self) -> usize {
        self.text.len()
    }

    fn show(&self) -> String {
        let (is, was) = (self.captured(), &self.text);
        format!("capture {} of {}", readable(&is), readable(was))
    }
}

/// A dump with a byte wrong, anywhere; at times without an end record, or with empty lines.
pub fn one_byte(chance: &mut Chance) -> OneByteCase {
    let mut lines = dump(chance);
    if chance.once_in(8) {
        lines.pop();
    }
    while chance.once_in(3) {
        lines.insert(chance.under(lines.len() + 1), vec![]);
    }
    let end = chance.one_of(&[b"\n".as_slice(), b"\r\n"]);
    let text: Vec<u8> = lines.iter().flat_map(|line| [line, end].concat()).collect();
    let at = match chance.once_in(3) {
        // at a line end
        true => text
            .iter()
            .position(|&byte| byte == b'\n')
            .map_or(0, |first| {
                let ends: Vec<usize> = (first..text.len())
                    .filter(|&at| text[at] == b'\n')
                    .collect();
                chance.one_of(&ends)
            }),
        false => chance.under(text.len() + 1),
    };
    let (lost, new) = match chance.under(4) {
        0 => (true, None),
        1 => (false, Some(chance.one_of(&TELLING))),
        2 => (true, Some(chance.byte())),
        _ => (true, Some(chance.one_of(&TELLING))),
    };
    OneByteCase {
        text,
        at,
        lost,
        new,
    }
}
