//! Loads through a window table: a plain model. Limits are tested by sums of large numbers and by numbers that occur twice,
//! and a byte is stored where the first window that holds its address says.

use ihex_sys::{MAX_PAGE, MOST_WINDOWS};

use crate::inputs::marks::packed_length;
use crate::inputs::tables::{Kind, Row, TableCase};
use crate::models::loads::{self, LoadAnswer, Site};
use crate::models::srecords;

/// The number of the refusal of a table.
pub const BAD_TABLE: u32 = 23;

/// Whether a case breaks a limit.
pub type Broken = fn(&TableCase) -> bool;

/// How many limits there are.
pub const HOW_MANY: usize = 10;

/// The limits of a table, a pool, marks and a call, by name.
pub const LIMITS: [(&str, Broken); HOW_MANY] = [
    ("a part of a window", |case| case.torn > 0),
    ("too many windows", |case| case.rows.len() > MOST_WINDOWS),
    ("no owner of the call", |case| !is_owner(case.owner)),
    ("no owner of a window", |case| {
        !case.rows.iter().all(|row| is_owner(row.owner))
    }),
    ("a pool too long", |case| case.pool > MAX_PAGE),
    ("marks of another length", |case| {
        case.marks != packed_length(case.pool)
    }),
    ("an end beyond the addresses", |case| {
        let end = |row: &Row| u128::from(row.first) + u128::from(row.length);
        case.rows.iter().any(|row| end(row) > 1 << 32)
    }),
    ("an end beyond the pool", |case| {
        let end = |row: &Row| u128::from(row.place) + u128::from(row.length);
        case.rows.iter().any(|row| end(row) > case.pool as u128)
    }),
    ("a place in two windows", |case| {
        has_twice(&case.rows, |row| (0, row.place.into()))
    }),
    ("an address in two windows of an owner", |case| {
        has_twice(&case.rows, |row| (row.owner, row.first.into()))
    }),
];

fn is_owner(owner: u32) -> bool {
    owner == 1 || owner == 2
}

/// Whether a number occurs in two windows that belong together, each with its numbers from one on: one number after the other
/// is looked for. A window that is longer than any pool is left out: it ends beyond the pool.
pub fn has_twice(rows: &[Row], from: fn(&Row) -> (u32, u128)) -> bool {
    let numbers = |row: &Row| {
        let (whose, start) = from(row);
        (whose, start..start + u128::from(row.length))
    };
    let short = rows.iter().filter(|row| row.length <= MAX_PAGE as u64);
    let all: Vec<_> = short.map(numbers).collect();
    all.iter().enumerate().any(|(i, (whose, one))| {
        let mut others = all[i + 1..].iter().filter(|(other, _)| other == whose);
        others.any(|(_, other)| one.clone().any(|number| other.contains(&number)))
    })
}

/// What a load goes by.
#[derive(Clone, Copy)]
pub struct Rules {
    pub limits: [Broken; HOW_MANY],
    /// The place of an address, if it has one.
    pub place: fn(&TableCase, u64) -> Option<usize>,
    /// Which address of a data record lies outside, if one does.
    pub outside: fn(&TableCase, &[u64]) -> Option<u64>,
    /// Whether an accepted load takes away the mark of a place; places after the pool are those of unused bits.
    pub cleared: fn(&TableCase, usize) -> bool,
    /// Whether the text is judged before the table.
    pub late: bool,
    /// Whether marks are taken away before the text is judged.
    pub hasty: bool,
}

/// The right rules.
pub const RIGHT: Rules = Rules {
    limits: limits(),
    place: |case, address| place(case, address, |row| row.owner == case.owner),
    outside: |case, addresses| unplaced(addresses, |address| (RIGHT.place)(case, address)),
    cleared: |case, place| held(case, place).any(|row| row.owner == case.owner),
    late: false,
    hasty: false,
};

const fn limits() -> [Broken; HOW_MANY] {
    let mut found: [Broken; HOW_MANY] = [|_| false; HOW_MANY];
    let mut i = 0;
    while i < HOW_MANY {
        found[i] = LIMITS[i].1;
        i += 1;
    }
    found
}

/// The place of an address by the first of some windows that holds it, if one does.
pub fn place(case: &TableCase, address: u64, of: impl Fn(&Row) -> bool) -> Option<usize> {
    let holds = |row: &&Row| {
        let first = u64::from(row.first);
        of(row) && first <= address && address - first < row.length
    };
    let row = case.rows.iter().find(holds)?;
    Some((row.place + (address - u64::from(row.first))) as usize)
}

/// The first of some addresses that has no place.
pub fn unplaced(addresses: &[u64], place: impl Fn(u64) -> Option<usize>) -> Option<u64> {
    let mut addresses = addresses.iter().copied();
    addresses.find(|&address| place(address).is_none())
}

/// The windows that hold a place.
pub fn held(case: &TableCase, place: usize) -> impl Iterator<Item = &Row> {
    let place = place as u64;
    let holds = move |row: &&Row| row.place <= place && place - row.place < row.length;
    case.rows.iter().filter(holds)
}

/// Whether a table is refused by these rules, for its pool and its marks alone: the owner of the call is not looked at.
pub fn refuses(rules: Rules, case: &TableCase) -> bool {
    let own = TableCase {
        owner: 1,
        text: vec![],
        ..case.clone()
    };
    rules.limits.iter().any(|broken| broken(&own))
}

/// Which limits a case breaks, by their numbers.
pub fn broken(case: &TableCase) -> Vec<usize> {
    let limits = LIMITS.iter().enumerate();
    let broken = limits.filter(|(_, (_, broken))| broken(case));
    broken.map(|(i, _)| i).collect()
}

/// Takes away the marks that an accepted load takes away.
fn clear(rules: Rules, case: &TableCase, row: &mut [u8]) {
    for place in 0..8 * row.len() {
        if (rules.cleared)(case, place) {
            row[place / 8] &= !(1 << (place % 8));
        }
    }
}

/// What the text of a case states by these rules.
fn stated(rules: Rules, case: &TableCase) -> loads::Stated {
    let site = Site {
        place: &|address| (rules.place)(case, address),
        outside: &|addresses| (rules.outside)(case, addresses),
    };
    match case.kind {
        Kind::Intel => loads::stated_at(loads::RIGHT, &case.text, &site),
        Kind::SRecords => srecords::stated_at(srecords::RIGHT, &case.text, &site),
    }
}

/// A load by these rules: byte by byte, each place by itself.
pub fn placed_by(rules: Rules, case: &TableCase, pool: &mut [u8], row: &mut [u8]) -> LoadAnswer {
    let bad = rules.limits.iter().any(|broken| broken(case));
    let refused = LoadAnswer::refused(BAD_TABLE, 0, 0, 0);
    if bad && !rules.late {
        return refused;
    }
    if rules.hasty {
        clear(rules, case, row);
    }
    match stated(rules, case) {
        Err(why) => why,
        Ok(_) if bad => refused,
        Ok(stated) => {
            clear(rules, case, row);
            for (place, byte) in stated.places {
                if place < pool.len() && place / 8 < row.len() {
                    pool[place] = byte;
                    row[place / 8] |= 1 << (place % 8);
                }
            }
            LoadAnswer::accepted(stated.records, stated.start)
        }
    }
}

/// The model: a load by the right rules.
pub fn model(case: &TableCase, pool: &mut [u8], row: &mut [u8]) -> LoadAnswer {
    placed_by(RIGHT, case, pool, row)
}
