//! Records and lists of them that are to be written.

use crate::inputs::chance::Chance;
use crate::inputs::shrink::{plainer, shorter, smaller_number, with_each, Case};
use crate::subjects::told::Entry;

/// Entries with a smaller number, position or length.
fn smaller_entry(entry: &Entry) -> Vec<Entry> {
    with_each!(
        entry,
        len in smaller_number(entry.len),
        at in smaller_number(entry.at),
        number in smaller_number(entry.number as usize).into_iter().map(|n| n as u32),
        second in smaller_number(entry.second.into()).into_iter().map(|n| n as u16),
    )
}

#[derive(Clone)]
pub struct RecordCase {
    pub entry: Entry,
    pub pool: Vec<u8>,
    /// The output's length.
    pub out: usize,
}

impl Case for RecordCase {
    fn smaller(&self) -> Vec<Self> {
        with_each!(
            self,
            entry in smaller_entry(&self.entry),
            out in smaller_number(self.out),
            pool in shorter(&self.pool),
        )
    }

    fn size(&self) -> usize {
        self.entry.len.min(self.pool.len()) + self.out
    }

    fn show(&self) -> String {
        format!(
            "{:?} pool {:02X?} output {}",
            self.entry, self.pool, self.out
        )
    }
}

#[derive(Clone)]
pub struct ObjectCase {
    pub entries: Vec<Entry>,
    pub pool: Vec<u8>,
    /// The output's length.
    pub out: usize,
    /// What stands in the byte of an entry that is not read.
    pub spare: u8,
    /// How many bytes stand after the last entry.
    pub tail: usize,
}

impl ObjectCase {
    /// With an entry or its payload left out, and an output that is shorter by as much as is then not
    /// written.
    fn lighter(&self, i: usize) -> Vec<Self> {
        let entry = &self.entries[i];
        let bare = Entry {
            len: 0,
            ..entry.clone()
        };
        let saved = entry.written() - bare.written();
        let lighter = |inner: &[Entry], saved| {
            let out = self.out.checked_sub(saved)?;
            let entries = [&self.entries[..i], inner, &self.entries[i + 1..]].concat();
            Some(ObjectCase {
                entries,
                out,
                ..self.clone()
            })
        };
        let gone = lighter(&[], entry.written());
        let emptied = lighter(&[bare], saved).filter(|_| saved > 0);
        gone.into_iter().chain(emptied).collect()
    }
}

impl Case for ObjectCase {
    fn smaller(&self) -> Vec<Self> {
        let mut found = with_each!(self, entries in shorter(&self.entries));
        found.extend((0..self.entries.len()).flat_map(|i| self.lighter(i)));
        found.extend(with_each!(
            self,
            entries in plainer(&self.entries, smaller_entry),
            out in smaller_number(self.out),
            tail in smaller_number(self.tail),
            pool in shorter(&self.pool),
        ));
        found
    }

    fn size(&self) -> usize {
        self.entries.len()
    }

    fn show(&self) -> String {
        let ObjectCase {
            entries,
            pool,
            out,
            spare,
            tail,
        } = self;
        format!("list {entries:?} and {tail} bytes, spare {spare}, pool {pool:02X?} output {out}")
    }
}

/// A record to be written: mostly one whose payload lies in a pool of this length.
pub fn entry(pool: usize, chance: &mut Chance) -> Entry {
    let kind = match chance.under(24) {
        0 => chance.byte(),
        n if n < 12 => 0,
        _ => chance.under(6) as u8,
    };
    let len = match chance.under(16) {
        0 => chance.from_to(253, 300),
        1 => chance.around(pool),
        2 => chance.under(301),
        _ => chance.under(34),
    };
    let at = match chance.under(8) {
        0 => chance.around(pool.saturating_sub(len)),
        _ => chance.under(pool.saturating_sub(len) + 1),
    };
    let number = match chance.under(16) {
        0 => chance.number() as u32,
        1 => chance.from_to(0xFFFE, 0x1_0001) as u32,
        _ if kind == 5 => chance.number() as u32,
        _ => u32::from(chance.number() as u16),
    };
    Entry {
        kind,
        number,
        second: chance.number() as u16,
        at,
        len,
    }
}

/// A record with a pool and an output, each at times too short.
pub fn record(chance: &mut Chance) -> RecordCase {
    let n = chance.one_of(&[0, 1, 40, 255, 256, 300, 600]);
    let pool = chance.bytes(n);
    let entry = entry(pool.len(), chance);
    let full = 11
        + 2 * if entry.kind == 0 {
            entry.len.min(600)
        } else {
            4
        };
    let out = match chance.under(4) {
        0 => chance.under(24),
        1 => (full + chance.under(3)) - 1,
        _ => 700,
    };
    RecordCase { entry, pool, out }
}

/// Makes a record of an entry that is an end or not a record; it is not an end.
pub fn make_record(one: &mut Entry) {
    if one.kind == 1 || !one.is_record() {
        one.kind %= 6;
        one.kind -= one.kind % 2;
        one.number &= 0xFFFF;
    }
}

/// Puts an end after a list; with a flaw none to three, anywhere.
pub fn put_ends(entries: &mut Vec<Entry>, flaw: bool, chance: &mut Chance) {
    let end = Entry {
        kind: 1,
        number: 0,
        second: 0,
        at: 0,
        len: 0,
    };
    for _ in 0..if flaw { chance.under(4) } else { 1 } {
        let at = if flaw && chance.once_in(2) {
            chance.under(entries.len() + 1)
        } else {
            entries.len()
        };
        entries.insert(at, end.clone());
    }
}

/// A list of records with up to three ends. A third are as they should be, the others have a flaw:
/// ends too few, too many or in the wrong place, payloads too long or outside the pool, or entries
/// that are not records.
pub fn object(chance: &mut Chance) -> ObjectCase {
    let n = chance.one_of(&[0, 40, 300, 600]);
    let pool = chance.bytes(n);
    let flaw = chance.under(6);
    let (ends, payloads, strangers) = (flaw < 2, flaw == 1 || flaw == 2, flaw == 3);
    let mut entries = Vec::new();
    for _ in 0..chance.under(10) {
        let mut one = entry(pool.len(), chance);
        if !strangers {
            make_record(&mut one);
        }
        if !payloads && one.kind == 0 && (one.payload(&pool).is_none() || one.len > 255) {
            one.at = 0;
            one.len = pool.len().min(255);
        }
        entries.push(one);
    }
    put_ends(&mut entries, ends, chance);
    let full: usize = entries.iter().map(|one| 12 + 2 * one.len.min(300)).sum();
    let out = match chance.under(6) {
        0 => chance.under(full + 2),
        1 => (full + chance.under(3)).saturating_sub(1),
        _ => full + 20 * entries.len(),
    };
    ObjectCase {
        entries,
        pool,
        out,
        spare: chance.byte(),
        tail: if chance.once_in(50) {
            chance.under(24)
        } else {
            0
        },
    }
}
