//! Noisy captures, of which is to be saved what can be, with the room for it.

use crate::inputs::chance::Chance;
use crate::inputs::lines::{damage, damaged, random, recase, summed, TELLING};
use crate::inputs::shrink::{readable, smaller_number, smaller_text, with_each, Case};
use crate::inputs::spelling::line_of;
use crate::inputs::start_records::Start;
use crate::inputs::texts::text;

#[derive(Clone)]
pub struct SalvageCase {
    pub text: Vec<u8>,
    /// How many bytes longer than the clean file the output is, or shorter if below 0.
    pub out: isize,
    /// How many bytes longer than the entries the list is, or shorter if below 0.
    pub list: isize,
}

impl Case for SalvageCase {
    fn smaller(&self) -> Vec<Self> {
        let nearer = |n: isize| [0, n / 2].into_iter().filter(move |&other| other != n);
        with_each!(
            self,
            text in smaller_text(&self.text),
            out in nearer(self.out),
            list in nearer(self.list),
        )
    }

    fn size(&self) -> usize {
        self.text.len()
    }

    fn show(&self) -> String {
        let SalvageCase { out, list, .. } = self;
        let text = readable(&self.text);
        format!("text {text} output {out:+} list {list:+}")
    }
}

/// What is spare of the output and of the list, by rule: exactly full, one short, both, and more than is wanted.
pub const ROOMS: [(isize, isize); 8] = [
    (0, 0),
    (-1, 0),
    (0, -1),
    (-1, -1),
    (0, 15),
    (9, 40),
    (isize::MIN / 2, 0),
    (0, isize::MIN / 2),
];

/// Each text with each room.
fn in_rooms(texts: impl IntoIterator<Item = Vec<u8>>) -> Vec<SalvageCase> {
    let mut found = Vec::new();
    for text in texts {
        for (out, list) in ROOMS {
            let text = text.clone();
            found.push(SalvageCase { text, out, list });
        }
    }
    found
}

/// A text with some room, mostly just enough.
fn in_a_room(text: Vec<u8>, chance: &mut Chance) -> SalvageCase {
    let (out, list) = match chance.once_in(2) {
        true => (0, 0),
        false => (
            chance.one_of(&[-13, -12, -1, 0, 1, 12, 600]),
            chance.one_of(&[-33, -17, -16, -15, -1, 0, 1, 15, 16, 47, 600]),
        ),
    };
    SalvageCase { text, out, list }
}

/// The lines of the small texts: each fate and what leads to it.
const LINES: [&str; 13] = [
    "",
    ":00000001FF",
    ":0100000011EE",
    "x",
    ":020000040001F9",
    ":020000021200EA",
    ":00000001FE",
    ":0000000000",
    ":04000005000000CD2A",
    ":0400000300003800C1",
    ":0100010022dc",
    ":00123401b9",
    ":G",
];

/// How many blocks the small texts come in: by their first line, and one for those without a line.
pub const SMALL: u64 = LINES.len() as u64 + 1;

/// Every text of up to four of these lines that begins with the block's; the last line has no LF in half of them.
pub fn every_small(block: u64, _: &mut Chance) -> Vec<SalvageCase> {
    let first = match LINES.get(block as usize) {
        Some(first) => first.as_bytes(),
        None => return in_rooms([vec![]]),
    };
    let mut texts = vec![first.to_vec()];
    let mut from = 0;
    for _ in 1..4 {
        let end = texts.len();
        for i in from..end {
            for line in LINES {
                texts.push([&texts[i], &b"\n"[..], line.as_bytes()].concat());
            }
        }
        from = end;
    }
    for (i, text) in texts.iter_mut().enumerate() {
        if i % 2 == 0 {
            text.push(b'\n');
        }
    }
    // Of the longest texts, which are many, each has one room.
    let long = texts.split_off(from);
    let mut found = in_rooms(texts);
    let rooms = ROOMS.into_iter().cycle();
    let with = |(text, (out, list))| SalvageCase { text, out, list };
    found.extend(long.into_iter().zip(rooms).map(with));
    found
}

/// Document 01's lines, as one capture: those that are records with a base before them, and then each that is refused.
const DOCUMENT: [&str; 16] = [
    ":020000021200EA",
    ":010005007783",
    ":02000004FFFFFC",
    ":04012000102030403B",
    ":04000005000000CD2A",
    ":02FFFF00AABB9B",
    ":",
    ":020000040800F2",
    ":0100000041BE",
    ":G",
    ":01000000FF",
    ":020000020000FC",
    ":0100000041BE",
    ":00000006FA",
    ":02000004FFFFFC",
    ":00123401B9",
];

/// A block for each line.
pub const DOCUMENTS: u64 = DOCUMENT.len() as u64;

/// Document 01's lines with one of them damaged: each byte to each other one, lost, doubled, and the line broken there;
/// then the line lost whole, emptied and doubled.
pub fn document_damaged(block: u64, chance: &mut Chance) -> Vec<SalvageCase> {
    let lines: Vec<Vec<u8>> = DOCUMENT
        .iter()
        .map(|line| line.as_bytes().to_vec())
        .collect();
    let at = block as usize;
    let line = &lines[at];
    let mut others: Vec<Vec<Vec<u8>>> = vec![vec![], vec![vec![]], vec![line.clone(); 2]];
    for place in 0..line.len() {
        let (before, after) = (&line[..place], &line[place + 1..]);
        let changed = (0..=255).map(|byte| vec![[before, &[byte], after].concat()]);
        others.extend(changed);
        others.push(vec![[before, after].concat()]);
        others.push(vec![[before, &line[place..=place], &line[place..]].concat()]);
        others.push(vec![before.to_vec(), line[place..].to_vec()]);
    }
    let text = |other: Vec<Vec<u8>>| {
        let whole = [&lines[..at], &other, &lines[at + 1..]].concat();
        in_a_room([whole.join(&b'\n'), vec![b'\n']].concat(), chance)
    };
    others.into_iter().map(text).collect()
}

/// The lines of a dump: some set a base, data follows each, starts stand between them, and an end record is last.
pub fn dump(chance: &mut Chance) -> Vec<Vec<u8>> {
    let start = Start::new(chance);
    let mut lines = Vec::new();
    for base in 0..chance.under(5) {
        if base > 0 || chance.once_in(2) {
            let kind = chance.one_of(&[2, 4, 4]);
            lines.push(line_of(kind, 0, &chance.bytes(2)));
        }
        for _ in 0..chance.under(5) {
            let size = match chance.under(12) {
                0 => 0,
                1 => chance.under(256),
                _ => chance.from_to(1, 17),
            };
            let any = chance.number() as u16;
            let offset = chance.one_of(&[0, 0xFFFE, any]);
            lines.push(match chance.once_in(8) {
                true => start.line(chance),
                false => line_of(0, offset, &chance.bytes(size)),
            });
        }
    }
    lines.push(line_of(1, 0, &[]));
    for line in &mut lines {
        if chance.once_in(8) {
            recase(line, chance);
        }
    }
    lines
}

/// The text of lines, with line ends of either kind.
pub fn joined(lines: &[Vec<u8>], chance: &mut Chance) -> Vec<u8> {
    let kind = chance.under(3);
    let mut text = Vec::new();
    for line in lines {
        text.extend(line);
        let cr = kind == 1 || kind == 2 && chance.once_in(2);
        text.extend(if cr { &b"\r\n"[..] } else { b"\n" });
    }
    if chance.once_in(6) {
        text.pop();
    }
    text
}

/// What noise does to the lines of a capture: one is damaged, lost, emptied, doubled, moved or made up.
fn disturb(lines: &mut Vec<Vec<u8>>, chance: &mut Chance) {
    let at = chance.under(lines.len() + 1);
    let here = at < lines.len();
    match chance.under(10) {
        0..=3 if here => damage(&mut lines[at], chance),
        4 if here => drop(lines.remove(at)),
        5 if here => lines[at].clear(),
        6 if here => lines.insert(at, lines[at].clone()),
        7 if at + 1 < lines.len() => lines.swap(at, at + 1),
        8 => {
            let odd: [fn(&mut Chance) -> Vec<u8>; 3] = [random, damaged, summed];
            lines.insert(at, chance.one_of(&odd)(chance));
        }
        _ => lines.insert(at, vec![]),
    }
}

/// A capture of dumps, one mostly: with noise in their lines, noise in their bytes, and at times a banner before them.
pub fn capture(chance: &mut Chance) -> SalvageCase {
    let mut lines = dump(chance);
    while chance.once_in(4) {
        lines.extend(dump(chance));
    }
    if chance.once_in(8) {
        lines.insert(0, b"ready".to_vec());
    }
    if chance.once_in(8) {
        lines.pop();
    }
    for _ in 0..chance.under(4) {
        disturb(&mut lines, chance);
    }
    let mut text = joined(&lines, chance);
    for _ in 0..chance.under(3) {
        damage(&mut text, chance);
    }
    if chance.once_in(8) {
        text.truncate(chance.under(text.len() + 1));
    }
    in_a_room(text, chance)
}

/// Whether a line of a dump sets a base.
fn sets_base(line: &[u8]) -> bool {
    matches!(line.get(7..9), Some(b"02" | b"04"))
}

/// A dump with each line that sets a base damaged in turn, then lost, and then all of them damaged.
pub fn bases_damaged(_: u64, chance: &mut Chance) -> Vec<SalvageCase> {
    let mut found = Vec::new();
    while found.len() < 1000 {
        let lines = dump(chance);
        let mut all = lines.clone();
        for at in (0..lines.len()).filter(|&at| sets_base(&lines[at])) {
            damage(&mut all[at], chance);
            let mut one = lines.clone();
            one[at].clone_from(&all[at]);
            let mut lost = lines.clone();
            lost.remove(at);
            for lines in [one, lost] {
                let text = joined(&lines, chance);
                found.push(in_a_room(text, chance));
            }
        }
        let text = joined(&all, chance);
        found.push(in_a_room(text, chance));
    }
    found
}

/// So many empty lines, and then lines that are dropped.
#[derive(Clone)]
pub struct ManyCase {
    empty: usize,
    out: isize,
    list: isize,
}

impl ManyCase {
    pub fn capture(&self) -> SalvageCase {
        let after = b"x\n:0100000011EE\n:G\n:00000001FF\n";
        SalvageCase {
            text: [&b"\n".repeat(self.empty), &after[..]].concat(),
            out: self.out,
            list: self.list,
        }
    }
}

impl Case for ManyCase {
    fn smaller(&self) -> Vec<Self> {
        with_each!(self, empty in smaller_number(self.empty))
    }

    fn size(&self) -> usize {
        self.empty
    }

    fn show(&self) -> String {
        let ManyCase { empty, out, list } = self;
        format!("{empty} empty lines, and four more, output {out:+} list {list:+}")
    }
}

/// Line numbers that need two bytes, and three.
pub fn many_lines(_: u64, _: &mut Chance) -> Vec<ManyCase> {
    let mut found = Vec::new();
    for empty in [254, 255, 256, 65_533, 65_534, 65_535, 65_536, 70_000] {
        for (out, list) in ROOMS {
            found.push(ManyCase { empty, out, list });
        }
    }
    found
}

/// Lines of all kinds, as the readers are given them.
pub fn mixed(chance: &mut Chance) -> SalvageCase {
    let text = text(chance);
    in_a_room(text, chance)
}

/// Noise: bytes by chance, or telling ones, in which lines end and colons stand.
pub fn noise(chance: &mut Chance) -> SalvageCase {
    let style = chance.under(3);
    let one = |chance: &mut Chance| match style {
        0 => chance.byte(),
        1 => chance.one_of(&TELLING),
        _ => chance.one_of(b"\n\n\r:0F"),
    };
    let text = (0..chance.under(120)).map(|_| one(chance)).collect();
    in_a_room(text, chance)
}
