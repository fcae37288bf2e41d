//! Lights, and rows of dumps that are loaded into their pages.

use ihex_sys::{COUNT_UNKNOWN, MAX_PAGE};

use crate::inputs::chance::Chance;
use crate::inputs::lines::damage;
use crate::inputs::loads::{line_end, LoadCase};
use crate::inputs::marks::packed_length;
use crate::inputs::shrink::{plainer, readable, shorter, smaller_number};
use crate::inputs::shrink::{smaller_text, with_each, Case};
use crate::inputs::tables::{data_at, other_line, Kind};
use crate::subjects::told::Light;

/// What each byte of page and marks holds where no dump has been.
const FRESH: [u8; 2] = [0xCC, 0xAA];

/// A dump, and the page and marks that it is loaded into.
#[derive(Clone, PartialEq, Eq, Debug)]
pub struct Dump {
    pub kind: Kind,
    pub text: Vec<u8>,
    /// The page's length, and the marks' in bytes.
    pub page: usize,
    pub marks: usize,
    /// What each byte of page and marks holds before the dump; if nothing is said, it is what the dump before left.
    pub old: Option<[u8; 2]>,
}

impl Dump {
    /// A dump into the page of a light, over what the dump before left.
    pub fn new(light: Light, kind: Kind, text: Vec<u8>) -> Self {
        // A longer page is refused as this one is.
        let page = light.length.min(MAX_PAGE + 1);
        Dump {
            kind,
            text,
            page,
            marks: packed_length(page),
            old: None,
        }
    }

    /// Makes page and marks of what the dump before left in them.
    pub fn prepare(&self, page: &mut Vec<u8>, marks: &mut Vec<u8>) {
        if self.old.is_some() {
            page.clear();
            marks.clear();
        }
        let [byte, eight] = self.old.unwrap_or(FRESH);
        page.resize(self.page, byte);
        marks.resize(self.marks, eight);
    }

    /// The same text, page and marks as a load into the page of a light.
    pub fn load(&self, light: Light) -> LoadCase {
        LoadCase {
            text: self.text.clone(),
            first: light.first,
            page: self.page,
            marks: self.marks,
            last: 0,
        }
    }

    /// Dumps that are plainer than this one.
    fn plainer(&self) -> Vec<Self> {
        let olds = match self.old {
            None => vec![],
            Some([0, 0]) => vec![None],
            Some(_) => vec![None, Some([0; 2])],
        };
        with_each!(
            self,
            text in smaller_text(&self.text),
            old in olds,
        )
    }

    fn show(&self) -> String {
        let Dump {
            kind,
            page,
            marks,
            old,
            ..
        } = self;
        let text = readable(&self.text);
        format!("{kind:?} {text} into {page} and {marks} over {old:02X?}")
    }
}

/// A light, and a row of dumps.
#[derive(Clone)]
pub struct LightCase {
    pub light: Light,
    /// What the light knows before its first dump, if it is made up by hand and not set up.
    pub known: Option<u32>,
    pub dumps: Vec<Dump>,
}

impl LightCase {
    /// A light that is set up.
    pub fn new(light: Light, dumps: Vec<Dump>) -> Self {
        LightCase {
            light,
            known: None,
            dumps,
        }
    }

    /// The same for a page of so many places; so are the dumps whose page had the light's length.
    fn resized(&self, length: usize) -> Self {
        let mut other = self.clone();
        other.light.length = length;
        let own = |dump: &&mut Dump| dump.page == self.light.length;
        for dump in other.dumps.iter_mut().filter(own) {
            let fewer = packed_length(dump.page) - packed_length(length);
            dump.page = length;
            dump.marks = dump.marks.saturating_sub(fewer);
        }
        other
    }
}

impl Case for LightCase {
    fn smaller(&self) -> Vec<Self> {
        let light = &self.light;
        let lights = with_each!(
            light,
            first in [0].into_iter().filter(|_| light.first > 0),
            high in smaller_number(light.high),
            low in smaller_number(light.low),
        );
        let known = self.known.unwrap_or(0) as usize;
        let lower = smaller_number(known).into_iter().map(|n| Some(n as u32));
        let mut found = with_each!(
            self,
            dumps in shorter(&self.dumps),
            known in self.known.map(|_| None).into_iter().chain(lower),
            light in lights,
        );
        found.extend(
            smaller_number(self.light.length)
                .into_iter()
                .map(|n| self.resized(n)),
        );
        found.extend(with_each!(self, dumps in plainer(&self.dumps, Dump::plainer)));
        found
    }

    fn size(&self) -> usize {
        self.dumps.iter().map(|dump| 1 + dump.text.len()).sum()
    }

    fn show(&self) -> String {
        let Light {
            first,
            length,
            high,
            low,
        } = self.light;
        let dumps: Vec<String> = self.dumps.iter().map(Dump::show).collect();
        format!(
            "light {first:08X} {length} {high} {low} known {:?} dumps {}",
            self.known,
            dumps.join(", ")
        )
    }
}

/// A light that is set up, and dumps of Intel HEX into one page with its marks.
#[derive(Clone)]
pub struct OnePageCase {
    pub light: Light,
    pub page: usize,
    pub marks: usize,
    pub texts: Vec<Vec<u8>>,
}

impl OnePageCase {
    /// The same as a row of dumps. The bytes are what each byte of page and marks holds before the first.
    pub fn row(&self, old: [u8; 2]) -> LightCase {
        let dump = |(n, text): (usize, &Vec<u8>)| Dump {
            page: self.page,
            marks: self.marks,
            old: (n == 0).then_some(old),
            ..Dump::new(self.light, Kind::Intel, text.clone())
        };
        let dumps = self.texts.iter().enumerate().map(dump);
        LightCase::new(self.light, dumps.collect())
    }
}

impl Case for OnePageCase {
    fn smaller(&self) -> Vec<Self> {
        let light = &self.light;
        let lights = with_each!(
            light,
            length in smaller_number(light.length),
            high in smaller_number(light.high),
            low in smaller_number(light.low),
        );
        let mut fewer = shorter(&self.texts);
        fewer.retain(|texts| !texts.is_empty());
        with_each!(
            self,
            texts in fewer,
            light in lights,
            page in smaller_number(self.page),
            marks in smaller_number(self.marks),
            texts in plainer(&self.texts, |text| smaller_text(text)),
        )
    }

    fn size(&self) -> usize {
        self.texts.iter().map(Vec::len).sum()
    }

    fn show(&self) -> String {
        self.row(FRESH).show()
    }
}

/// A light by chance: of a short page mostly, at times of none, of the longest, or of one too long; at times with a
/// page that ends at 2^32, or beyond it.
fn light(chance: &mut Chance) -> Light {
    let length = match chance.under(400) {
        0 => MAX_PAGE,
        1 => MAX_PAGE + 1,
        2 => usize::MAX - chance.under(3),
        3..=10 => 0,
        11..=20 => 1,
        _ => chance.from_to(2, 20),
    };
    let last = (length as u32).wrapping_neg();
    let first = match chance.under(12) {
        0 => last,
        1 => last.wrapping_add(1 + chance.under(3) as u32),
        2 => 0xFFFF - chance.under(24) as u32,
        3 => chance.number() as u32,
        4 => 0x1_2000,
        5..=7 => 0,
        _ => chance.one_of(&[1, 2, 0x10, 0x100]),
    };
    let place = |chance: &mut Chance| match chance.under(32) {
        0 => chance.around(length.min(MAX_PAGE)),
        1 => first as usize + chance.under(4),
        2..=4 => 0,
        5..=7 => length.saturating_sub(1),
        _ => chance.under(length.max(1)),
    };
    let high = place(chance);
    let low = match chance.under(8) {
        0 => high,
        1..=3 => high.wrapping_add(1),
        _ => place(chance),
    };
    Light {
        first,
        length,
        high,
        low,
    }
}

/// How far a count moves on from one dump to the next: about the limits of what is forward, and about those of a byte.
pub const STEPS: [u16; 14] = [
    0, 1, 2, 255, 256, 257, 32_766, 32_767, 32_768, 32_769, 65_279, 65_280, 65_534, 65_535,
];

/// A count after this one.
pub fn count_after(count: u16, chance: &mut Chance) -> u16 {
    count.wrapping_add(match chance.under(6) {
        0 => chance.number() as u16,
        1 | 2 => 1,
        _ => chance.one_of(&STEPS),
    })
}

/// A line that states bytes from a place of a light's page on.
pub fn stating(
    light: Light,
    kind: Kind,
    place: usize,
    bytes: &[u8],
    chance: &mut Chance,
) -> Vec<u8> {
    let address = light.first.wrapping_add(place as u32);
    data_at(kind, address, bytes, chance)
}

/// The places of a count that lie in a light's page, each with its byte.
pub fn count_bytes(light: Light, count: u16) -> Vec<(usize, u8)> {
    let [high, low] = count.to_be_bytes();
    let mut both = vec![(light.high, high), (light.low, low)];
    both.retain(|(place, _)| *place < light.length);
    both
}

/// The most places from one byte of a count to the other in one record.
const NEAR: usize = 16;

/// Lines that state these bytes: one that states all that lies between them too, or one for each byte.
fn count_lines(
    light: Light,
    kind: Kind,
    stated: &[(usize, u8)],
    chance: &mut Chance,
) -> Vec<Vec<u8>> {
    let places = stated.iter().map(|(place, _)| *place);
    let (from, last) = match (places.clone().min(), places.max()) {
        (Some(from), Some(last)) => (from, last),
        _ => return vec![],
    };
    if last - from < NEAR && chance.once_in(2) {
        let mut bytes = chance.bytes(last - from + 1);
        for (place, byte) in stated {
            bytes[place - from] = *byte;
        }
        return vec![stating(light, kind, from, &bytes, chance)];
    }
    let one = |(place, byte): &(usize, u8)| stating(light, kind, *place, &[*byte], chance);
    stated.iter().map(one).collect()
}

/// Lines that state a count, mostly: at times one of its bytes alone, or none, and at times another count first.
fn counting(light: Light, kind: Kind, count: u16, chance: &mut Chance) -> Vec<Vec<u8>> {
    let mut both = count_bytes(light, count);
    if chance.once_in(3) {
        both.reverse();
    }
    let stated = match chance.under(16) {
        0 => &[],
        1 => &both[..both.len().min(1)],
        _ => &both[..],
    };
    let mut lines = match chance.once_in(8) {
        true => count_lines(
            light,
            kind,
            &count_bytes(light, count_after(count, chance)),
            chance,
        ),
        false => vec![],
    };
    lines.extend(count_lines(light, kind, stated, chance));
    lines
}

/// A line that states a few bytes of a light's page, and seldom one outside.
fn other_bytes(light: Light, kind: Kind, chance: &mut Chance) -> Vec<u8> {
    let place = chance.under(light.length.clamp(1, MAX_PAGE));
    let most = light.length.saturating_sub(place).min(4);
    let n = match chance.once_in(24) {
        true => most + 1,
        false => chance.under(most + 1),
    };
    stating(light, kind, place, &chance.bytes(n), chance)
}

/// The text of a dump that states a count, mostly.
pub fn text(light: Light, kind: Kind, count: u16, chance: &mut Chance) -> Vec<u8> {
    let mut lines = counting(light, kind, count, chance);
    for _ in 0..chance.under(3) {
        let at = chance.under(lines.len() + 1);
        lines.insert(at, other_bytes(light, kind, chance));
    }
    for _ in 0..chance.one_of(&[0, 0, 0, 0, 0, 0, 1, 2]) {
        let at = chance.under(lines.len() + 1);
        lines.insert(at, other_line(kind, at, chance));
    }
    if !chance.once_in(16) {
        lines.push(kind.end().to_vec());
        if chance.once_in(3) {
            lines.extend(counting(light, kind, count_after(count, chance), chance));
        }
    }
    let mut text = lines.join(line_end(chance));
    if chance.once_in(24) {
        damage(&mut text, chance);
    }
    text
}

/// A dump that states a count, mostly; at times page or marks have another length than the light wants.
fn dump(light: Light, count: u16, chance: &mut Chance) -> Dump {
    let kind = chance.one_of(&[Kind::Intel, Kind::Intel, Kind::SRecords]);
    let text = text(light, kind, count, chance);
    let mut dump = Dump::new(light, kind, text);
    match chance.under(48) {
        0 => dump.page += 1,
        1 => dump.page = dump.page.saturating_sub(1),
        2 => dump.page = chance.under(20),
        3 => dump.marks += 1,
        4 => dump.marks = dump.marks.saturating_sub(1),
        _ => {}
    }
    if chance.once_in(4) {
        dump.marks = packed_length(dump.page);
    }
    let (byte, eight) = (chance.byte(), chance.one_of(&[0, 0xFF, 0x55]));
    dump.old = chance.one_of(&[None, None, Some([byte, eight])]);
    dump
}

/// A row of dumps for a light, whose count moves on from one to the next. Some dumps come twice.
fn row(light: Light, mut count: u16, n: usize, chance: &mut Chance) -> Vec<Dump> {
    let mut dumps: Vec<Dump> = Vec::new();
    for _ in 0..n {
        count = count_after(count, chance);
        let next = match dumps.last() {
            Some(last) if chance.once_in(8) => last.clone(),
            _ => dump(light, count, chance),
        };
        dumps.push(next);
    }
    dumps
}

/// What a light that is made up by hand knows: mostly a count near this one, at times one with more than 16 bits.
fn known(count: u16, chance: &mut Chance) -> u32 {
    let any = chance.number() as u32;
    match chance.under(8) {
        0 => chance.one_of(&[0, 1, 65_535, COUNT_UNKNOWN, COUNT_UNKNOWN + 1, u32::MAX]),
        1 => COUNT_UNKNOWN + u32::from(count),
        2 => any,
        _ => count.into(),
    }
}

/// A light and a short row of dumps.
pub fn short_row(chance: &mut Chance) -> LightCase {
    let (light, count) = (light(chance), chance.number() as u16);
    let n = match light.length {
        0..=20 => chance.from_to(1, 6),
        _ => chance.from_to(1, 3),
    };
    LightCase {
        light,
        known: chance.once_in(4).then(|| known(count, chance)),
        dumps: row(light, count, n, chance),
    }
}

/// A light and dumps of Intel HEX into one page with its marks, mostly of the lengths that the light wants.
pub fn one_page(chance: &mut Chance) -> OnePageCase {
    let (light, mut count) = (light(chance), chance.number() as u16);
    let mut texts: Vec<Vec<u8>> = Vec::new();
    for _ in 0..chance.from_to(1, 6) {
        count = count_after(count, chance);
        let next = match texts.last() {
            Some(last) if chance.once_in(8) => last.clone(),
            _ => text(light, Kind::Intel, count, chance),
        };
        texts.push(next);
    }
    let fit = Dump::new(light, Kind::Intel, vec![]);
    let (page, marks) = match chance.under(32) {
        0 => (fit.page.saturating_sub(1), fit.marks),
        1 => (fit.page, fit.marks + 1),
        _ => (fit.page, fit.marks),
    };
    OnePageCase {
        light,
        page,
        marks,
        texts,
    }
}

/// The most dumps of a long row.
const LONGEST: usize = 1000;

/// A long row of dumps, by the seed of the chance that makes it: so many dumps after the first ones, which are left out.
#[derive(Clone)]
pub struct LongRow {
    pub seed: u64,
    pub skipped: usize,
    pub dumps: usize,
}

impl LongRow {
    /// The light and its dumps.
    pub fn row(&self) -> LightCase {
        let mut chance = Chance::new(self.seed);
        let (first, length) = (chance.one_of(&[0, 0x100, 0x1_2000]), chance.from_to(2, 20));
        let light = Light {
            first,
            length,
            high: chance.under(length),
            low: chance.under(length),
        };
        let count = chance.number() as u16;
        let mut dumps = row(light, count, self.skipped + self.dumps, &mut chance);
        LightCase::new(light, dumps.split_off(self.skipped))
    }
}

impl Case for LongRow {
    fn smaller(&self) -> Vec<Self> {
        let mut found = with_each!(self, dumps in smaller_number(self.dumps));
        let fewer = smaller_number(self.dumps).into_iter();
        found.extend(fewer.map(|dumps| LongRow {
            seed: self.seed,
            skipped: self.skipped + self.dumps - dumps,
            dumps,
        }));
        found
    }

    fn size(&self) -> usize {
        self.dumps
    }

    fn show(&self) -> String {
        let LongRow {
            seed,
            skipped,
            dumps,
        } = self;
        format!("{dumps} dumps after the first {skipped} of the row {seed:X}")
    }
}

/// A long row of dumps.
pub fn long_row(chance: &mut Chance) -> LongRow {
    LongRow {
        seed: chance.number(),
        skipped: 0,
        dumps: chance.one_of(&[LONGEST, LONGEST - 1, 1 + LONGEST / 2, 100]),
    }
}
