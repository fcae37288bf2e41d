//! S-records: a plain model of the document's rules, since no crate reads them.

use ihex_sys::{BAD_RECORD, REFUSED};

use crate::inputs::lines::LineCase;
use crate::inputs::loads::LoadCase;
use crate::inputs::spelling::digits;
use crate::inputs::srecords::{address_bytes, has_data, SWriteCase, TYPES};
use crate::models::loads::{
    self, first_outside, laid, place_in, window, LoadAnswer, Site, Start, Stated, Statement,
};
use crate::models::writes::{refused, wrote, Written};
use crate::subjects::told::{part, told, Told, LAST_PLACE};

/// What reading, writing and loading go by.
#[derive(Clone, Copy)]
pub struct Rules {
    /// Whether a digit is a type's.
    pub named: fn(u8) -> bool,
    /// How many bytes the address of a type has.
    pub width: fn(u8) -> usize,
    /// The checksum, from the low byte of the sum.
    pub checksum: fn(u8) -> u8,
    /// The count, from the number of bytes of address and data.
    pub count: fn(usize) -> usize,
    /// Where byte i of a data record lies, from the record's address.
    pub placing: fn(u64, u64) -> u64,
    /// Whether the bytes of a type are placed.
    pub placed: fn(u8) -> bool,
    /// Whether a record of a type, with so much data, is counted.
    pub counted: fn(u8, usize) -> bool,
    /// Whether a count that is stated agrees with the data records seen.
    pub agrees: fn(u64, u64) -> bool,
    /// Whether a type ends a text that had data of this type, if it had any.
    pub ends: fn(u8, Option<u8>) -> bool,
    /// The start that an end of a type and with an address states.
    pub start: fn(u8, u32) -> Option<Start>,
}

/// The right rules.
pub const RIGHT: Rules = Rules {
    named: |kind| TYPES.contains(&kind),
    width: address_bytes,
    checksum: |sum| !sum,
    count: |bytes| bytes + 1,
    placing: |address, i| (address + i) & 0xFFFF_FFFF,
    placed: |kind| matches!(kind, 1..=3),
    counted: |kind, _| matches!(kind, 1..=3),
    agrees: |stated, seen| stated == seen,
    ends: |kind, _| matches!(kind, 7..=9),
    start: |_, address| Some((5, address.into(), 0)),
};

/// What a line says.
#[derive(Clone, PartialEq, Eq, Debug)]
pub struct Said {
    pub kind: u8,
    pub address: u32,
    pub data: Vec<u8>,
}

/// A refusal of a line: its number and its two values.
pub type Refusal = (u32, u64, u64);

fn sum(bytes: &[u8]) -> u8 {
    bytes.iter().fold(0, |sum, &byte| sum.wrapping_add(byte))
}

fn number(bytes: &[u8]) -> u32 {
    bytes
        .iter()
        .fold(0, |number, &byte| number << 8 | u32::from(byte))
}

/// The value of each character after the S, or the place of the first that is not a digit, as it is named.
fn values(line: &[u8]) -> Result<Vec<u8>, Refusal> {
    let value = |byte: u8| char::from(byte).to_digit(16).map(|value| value as u8);
    let mut found = Vec::new();
    for (place, &byte) in line.iter().enumerate().skip(1) {
        match value(byte) {
            Some(value) => found.push(value),
            None => return Err((2, place.min(LAST_PLACE) as u64, 0)),
        }
    }
    Ok(found)
}

/// The bytes after a type's digit, judged from the checksum on.
fn judged(rules: Rules, kind: u8, bytes: &[u8]) -> Result<Said, Refusal> {
    let (head, stated) = bytes.split_at(bytes.len() - 1);
    let computed = (rules.checksum)(sum(head));
    if computed != stated[0] {
        return Err((6, computed.into(), stated[0].into()));
    }
    let body = &head[1..];
    if usize::from(head[0]) != (rules.count)(body.len()) {
        return Err((7, 0, 0));
    }
    let (address, data) = body.split_at((rules.width)(kind));
    if !has_data(kind) && !data.is_empty() {
        return Err((9, 0, 0));
    }
    Ok(Said {
        kind,
        address: number(address),
        data: data.to_vec(),
    })
}

/// What a line says by these rules, or its first refusal.
pub fn read(rules: Rules, line: &[u8]) -> Result<Said, Refusal> {
    if line.first() != Some(&b'S') {
        return Err((1, 0, 0));
    }
    let all = values(line)?;
    let (kind, rest) = match all.split_first() {
        None => return Err((3, 0, 0)),
        Some((&kind, rest)) => (kind, rest),
    };
    if !(rules.named)(kind) {
        return Err((8, kind.into(), 0));
    }
    // Count, address and checksum.
    let least = 2 * (1 + (rules.width)(kind) + 1);
    if rest.len() < least {
        return Err((3, 0, 0));
    }
    if rest.len() > 512 {
        return Err((4, 0, 0));
    }
    if rest.len() % 2 == 1 {
        return Err((5, 0, 0));
    }
    let bytes: Vec<u8> = rest.chunks(2).map(|two| two[0] * 16 + two[1]).collect();
    judged(rules, kind, &bytes)
}

/// A refusal as it is told.
fn refusal((number, a, b): Refusal) -> Told {
    told(REFUSED + number, a, b, 0)
}

/// What is answered to a line, without a pool.
pub fn answer(rules: Rules, line: &[u8]) -> Told {
    match read(rules, line) {
        Err(why) => refusal(why),
        Ok(said) => Told {
            payload: said.data.clone(),
            ..told(
                said.kind.into(),
                said.address.into(),
                0,
                said.data.len() as u64,
            )
        },
    }
}

/// What is answered to a line with the case's pool: 10 where the data of an S0 to S3 has no room at the position.
pub fn answered(rules: Rules, case: &LineCase) -> Told {
    let mut answer = answer(rules, &case.line);
    if answer.code < 4 {
        let room = case.pool.checked_sub(answer.payload.len());
        if room.map_or(true, |room| case.at > room) {
            return refusal((10, 0, 0));
        }
        answer.values[1] = case.at as u64;
    }
    answer
}

/// The line of a record that has one.
fn line_of(rules: Rules, kind: u8, address: u32, data: &[u8]) -> Vec<u8> {
    let width = (rules.width)(kind);
    let mut bytes = vec![(rules.count)(width + data.len()) as u8];
    bytes.extend(&address.to_be_bytes()[4 - width..]);
    bytes.extend(data);
    bytes.push((rules.checksum)(sum(&bytes)));
    [vec![b'S', b'0' + kind], digits(&bytes, false)].concat()
}

/// What is written of a record by these rules.
pub fn write(rules: Rules, case: &SWriteCase) -> Written {
    let entry = &case.entry;
    let width = (rules.width)(entry.kind);
    if !(rules.named)(entry.kind) {
        return refused(BAD_RECORD, 0);
    }
    let data = match part(&case.pool, entry.at, entry.len) {
        None => return refused(REFUSED + 11, 0),
        Some(data) => data,
    };
    if !has_data(entry.kind) && !data.is_empty() {
        return refused(REFUSED + 9, 0);
    }
    if (rules.count)(width + data.len()) > 255 {
        return refused(REFUSED + 12, data.len() as u64);
    }
    if u64::from(entry.address) >= 1 << (8 * width) {
        return refused(REFUSED + 25, 0);
    }
    wrote(line_of(rules, entry.kind, entry.address, data), case.out)
}

/// The lines of a text that have a byte, each with its number.
fn lines(text: &[u8]) -> Vec<(usize, &[u8])> {
    let mut found = Vec::new();
    for (i, piece) in text.split_inclusive(|&byte| byte == b'\n').enumerate() {
        let line = match piece.strip_suffix(b"\n") {
            Some(ended) => ended.strip_suffix(b"\r").unwrap_or(ended),
            None => piece,
        };
        if !line.is_empty() {
            found.push((i + 1, line));
        }
    }
    found
}

/// What a text states in its window by these rules.
pub fn stated(rules: Rules, case: &LoadCase) -> Stated {
    let window = window(case, loads::RIGHT.fits)?;
    let site = Site {
        place: &|address| place_in(&window, address),
        outside: &|addresses| first_outside(addresses, &window),
    };
    stated_at(rules, &case.text, &site)
}

/// What a text states at a site by these rules.
pub fn stated_at(rules: Rules, text: &[u8], site: &Site) -> Stated {
    let mut latest = None;
    let mut stated = Statement::default();
    for (line, bytes) in lines(text) {
        let told = |(number, a, b): Refusal| LoadAnswer::refused(number, a, b, line);
        let said = read(rules, bytes).map_err(told)?;
        if (rules.placed)(said.kind) {
            latest = Some(said.kind);
            let address = |i| (rules.placing)(said.address.into(), i);
            let addresses: Vec<u64> = (0..said.data.len() as u64).map(address).collect();
            if let Some(outside) = (site.outside)(&addresses) {
                return Err(told((17, outside, 0)));
            }
            let places = addresses.into_iter().map(site.place).zip(said.data.clone());
            let inside = places.filter_map(|(place, byte)| Some((place?, byte)));
            stated.places.extend(inside);
        }
        if said.kind == 5 && !(rules.agrees)(said.address.into(), stated.records) {
            return Err(told((20, said.address.into(), stated.records)));
        }
        if (rules.counted)(said.kind, said.data.len()) {
            stated.records += 1;
        }
        if (rules.ends)(said.kind, latest) {
            stated.start = (rules.start)(said.kind, said.address);
            return Ok(stated);
        }
    }
    Err(LoadAnswer::refused(13, 0, 0, 0))
}

/// A load by these rules.
pub fn placed_by(rules: Rules, case: &LoadCase, page: &mut [u8], row: &mut [u8]) -> LoadAnswer {
    laid(stated(rules, case), loads::RIGHT.mark, page, row)
}

/// The model: a load by the right rules.
pub fn model(case: &LoadCase, page: &mut [u8], row: &mut [u8]) -> LoadAnswer {
    placed_by(RIGHT, case, page, row)
}

/// The number of the line of a text's first end, if it has one.
pub fn end_line(text: &[u8]) -> Option<usize> {
    let ends = |line: &[u8]| read(RIGHT, line).map_or(false, |said| (RIGHT.ends)(said.kind, None));
    let mut found = lines(text).into_iter().filter(|(_, line)| ends(line));
    found.next().map(|(number, _)| number)
}

/// The place of the first byte that is not a digit, if the load is refused for one: not as it is named.
pub fn offender(case: &LoadCase) -> Option<usize> {
    let refused = |&(_, line): &(usize, &[u8])| read(RIGHT, line).is_err();
    let (_, line) = lines(&case.text).into_iter().find(refused)?;
    offender_of(line)
}

/// The place of a line's first byte after the S that is not a digit, if the line begins with an S.
pub fn offender_of(line: &[u8]) -> Option<usize> {
    let rest = line.strip_prefix(b"S")?;
    let place = rest.iter().position(|byte| !byte.is_ascii_hexdigit())?;
    Some(place + 1)
}
