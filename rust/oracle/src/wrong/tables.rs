//! Ports that are wrong with window tables.

use crate::inputs::marks::packed_length;
use crate::inputs::tables::{Kind, Row, TableCase};
use crate::models::tables::{
    has_twice, held, place, placed_by, refuses, unplaced, Broken, Rules, BAD_TABLE, RIGHT,
};
use crate::subjects::port::Port;
use crate::wrong::named::{tell, Numbers, Places, Wrong};

/// A port that goes by other rules with tables.
struct Ruled(Rules);

impl Port for Ruled {
    fn check_table(&self, table: &[u8], pool_len: usize, marks_len: usize) -> u32 {
        let case = TableCase::of(Kind::Intel, &[], 1, table, pool_len, marks_len);
        match refuses(self.0, &case) {
            true => ihex_sys::REFUSED + BAD_TABLE,
            false => 0,
        }
    }

    fn load_table(
        &self,
        text: &[u8],
        owner: u32,
        table: &[u8],
        pool: &mut [u8],
        marks: &mut [u8],
        places: Places,
        numbers: Numbers,
    ) -> u32 {
        let case = TableCase::of(Kind::Intel, text, owner, table, pool.len(), marks.len());
        tell(placed_by(self.0, &case, pool, marks), places, numbers)
    }

    fn load_srecords_table(
        &self,
        text: &[u8],
        owner: u32,
        table: &[u8],
        pool: &mut [u8],
        marks: &mut [u8],
        places: Places,
        numbers: Numbers,
    ) -> u32 {
        let case = TableCase::of(Kind::SRecords, text, owner, table, pool.len(), marks.len());
        tell(placed_by(self.0, &case, pool, marks), places, numbers)
    }
}

fn ruled(name: &'static str, rules: Rules) -> Wrong {
    (name, Box::new(Ruled(rules)))
}

/// The numbers of the limits in the list of the model.
mod limits {
    pub const TORN: usize = 0;
    pub const WINDOWS: usize = 1;
    pub const CALL: usize = 2;
    pub const OWNER: usize = 3;
    pub const POOL: usize = 4;
    pub const MARKS: usize = 5;
    pub const ADDRESSES: usize = 6;
    pub const END: usize = 7;
    pub const PLACES: usize = 8;
    pub const OWN: usize = 9;
}

/// A port with another limit in the place of one.
fn limit(name: &'static str, which: usize, broken: Broken) -> Wrong {
    let mut rules = RIGHT;
    rules.limits[which] = broken;
    ruled(name, rules)
}

/// A port by the right rules.
pub fn right() -> Box<dyn Port> {
    Box::new(Ruled(RIGHT))
}

/// Every port that is wrong with tables.
pub fn all() -> Vec<Wrong> {
    [
        sizes(),
        ends(),
        shared_places(),
        shared_addresses(),
        finders(),
        refusers(),
        markers(),
        orders(),
    ]
    .into_iter()
    .flatten()
    .collect()
}

/// Those with another limit for the table's length, the owners, the pool or the marks.
fn sizes() -> Vec<Wrong> {
    use limits::{CALL, MARKS, OWNER, POOL, TORN, WINDOWS};
    vec![
        limit("drops a part of a window", TORN, |_| false),
        limit("takes 17 windows", WINDOWS, |case| case.rows.len() > 17),
        limit("refuses 16 windows", WINDOWS, |case| case.rows.len() > 15),
        limit("refuses a table of no windows", WINDOWS, |case| {
            case.rows.is_empty() || case.rows.len() > 16
        }),
        limit("takes a call by nobody", CALL, |_| false),
        limit("takes owner 3 in a call", CALL, |case| {
            !matches!(case.owner, 1..=3)
        }),
        limit("looks at the low byte of the owner alone", CALL, |case| {
            !matches!(case.owner as u8, 1 | 2)
        }),
        limit("takes a window of nobody", OWNER, |_| false),
        limit(
            "does not look at the owner of an empty window",
            OWNER,
            |case| {
                let nobody = |row: &&Row| row.owner == 0 || row.owner > 2;
                let nobodies = case.rows.iter().filter(nobody);
                nobodies.clone().any(|row| row.length > 0)
            },
        ),
        limit("takes a pool of 65,537 bytes", POOL, |case| {
            case.pool > 65_537
        }),
        limit("refuses a pool of 65,536 bytes", POOL, |case| {
            case.pool >= 65_536
        }),
        limit("takes marks that are too long", MARKS, |case| {
            case.marks < packed_length(case.pool)
        }),
        limit("rounds the length of the marks down", MARKS, |case| {
            case.marks != case.pool / 8
        }),
    ]
}

/// Those that judge the ends of windows wrongly.
fn ends() -> Vec<Wrong> {
    let addresses = |name, broken| limit(name, limits::ADDRESSES, broken);
    let pool = |name, broken| limit(name, limits::END, broken);
    vec![
        addresses("takes an end beyond 2^32", |_| false),
        addresses("refuses an end at 2^32", |case| {
            let at_end = |row: &Row| end(row.first.into(), row) >= 1 << 32;
            case.rows.iter().any(at_end)
        }),
        addresses("adds addresses modulo 2^32", |case| {
            let end = |row: &Row| row.first.wrapping_add(row.length as u32);
            case.rows.iter().any(|row| end(row) < row.first)
        }),
        pool("takes an end beyond the pool", |_| false),
        pool("refuses an end at the pool's", |case| {
            let at_end = |row: &Row| end(row.place, row) >= case.pool as u128;
            case.rows.iter().any(at_end)
        }),
        pool("adds place and length modulo 2^64", |case| {
            let end = |row: &Row| row.place.wrapping_add(row.length);
            case.rows.iter().any(|row| end(row) > case.pool as u64)
        }),
        pool("does not look at the place of an empty window", |case| {
            let beyond = |row: &&Row| end(row.place, row) > case.pool as u128;
            case.rows.iter().filter(beyond).any(|row| row.length > 0)
        }),
    ]
}

/// Where a window ends that starts at this number.
fn end(start: u64, row: &Row) -> u128 {
    u128::from(start) + u128::from(row.length)
}

/// Whether two windows of the table, the second at most so many after the first, are such.
fn any_two(case: &TableCase, near: usize, such: impl Fn(&Row, &Row) -> bool) -> bool {
    let mut rows = case.rows.iter().enumerate();
    rows.any(|(i, one)| {
        let mut after = case.rows.iter().skip(i + 1).take(near);
        after.any(|two| such(one, two))
    })
}

/// The usual test of ends: an empty window crosses what it lies in.
fn cross(one: &Row, two: &Row, start: fn(&Row) -> u64) -> bool {
    u128::from(start(one)) < end(start(two), two) && u128::from(start(two)) < end(start(one), one)
}

fn filled(one: &Row, two: &Row) -> bool {
    one.length > 0 && two.length > 0
}

/// How far apart two windows of a table can stand.
const ANY: usize = 16;

/// Those that judge wrongly whether windows share a place.
fn shared_places() -> Vec<Wrong> {
    let places = |name, broken| limit(name, limits::PLACES, broken);
    vec![
        places("takes windows that share a place", |_| false),
        places("takes windows of two owners that share a place", |case| {
            has_twice(&case.rows, |row| (row.owner, row.place.into()))
        }),
        places("refuses an empty window inside another's places", |case| {
            any_two(case, ANY, |one, two| cross(one, two, |row| row.place))
        }),
        places("looks for shared places of neighbours alone", |case| {
            any_two(case, 1, |one, two| {
                filled(one, two) && cross(one, two, |row| row.place)
            })
        }),
        places("refuses windows whose places touch", |case| {
            any_two(case, ANY, |one, two| {
                let touch = |one: &Row, two: &Row| u128::from(one.place) <= end(two.place, two);
                filled(one, two) && touch(one, two) && touch(two, one)
            })
        }),
    ]
}

/// Those that judge wrongly whether windows of an owner share an address.
fn shared_addresses() -> Vec<Wrong> {
    let addresses = |name, broken| limit(name, limits::OWN, broken);
    vec![
        addresses("takes windows that share an address", |_| false),
        addresses("refuses the same addresses for both owners", |case| {
            has_twice(&case.rows, |row| (0, row.first.into()))
        }),
        addresses(
            "refuses an empty window inside another's addresses",
            |case| {
                any_two(case, ANY, |one, two| {
                    one.owner == two.owner && cross(one, two, |row| row.first.into())
                })
            },
        ),
        addresses("looks for shared addresses of neighbours alone", |case| {
            any_two(case, 1, |one, two| {
                let own = one.owner == two.owner && filled(one, two);
                own && cross(one, two, |row| row.first.into())
            })
        }),
    ]
}

/// The place of an address in one window alone, if it has one there.
fn place_in(case: &TableCase, row: &Row, address: u64) -> Option<usize> {
    place(case, address, |other| other == row)
}

/// Those that find another place.
fn finders() -> Vec<Wrong> {
    vec![
        ruled(
            "does not look at the owner when it finds a place",
            Rules {
                place: |case, address| place(case, address, |_| true),
                outside: |case, addresses| {
                    unplaced(addresses, |address| place(case, address, |_| true))
                },
                ..RIGHT
            },
        ),
        ruled(
            "stores from place 0 on in every window",
            Rules {
                place: |case, address| {
                    let mut own = case.rows.iter().filter(|row| row.owner == case.owner);
                    let row = own.find(|row| place_in(case, row, address).is_some())?;
                    Some((address - u64::from(row.first)) as usize)
                },
                ..RIGHT
            },
        ),
    ]
}

/// The number of the owner's window that holds an address, if one does.
fn window_of(case: &TableCase, address: u64) -> Option<usize> {
    let holds = |row: &Row| row.owner == case.owner && place_in(case, row, address).is_some();
    case.rows.iter().position(holds)
}

/// Those that refuse another address, or none.
fn refusers() -> Vec<Wrong> {
    let outside = |name, outside| ruled(name, Rules { outside, ..RIGHT });
    vec![
        outside(
            "refuses what is outside the owner's first window",
            |case, addresses| {
                let mut own = case.rows.iter().filter(|row| row.owner == case.owner);
                let row = own.next();
                unplaced(addresses, |address| place_in(case, row?, address))
            },
        ),
        outside("refuses a record in two windows", |case, addresses| {
            let first = window_of(case, *addresses.first()?);
            unplaced(addresses, |address| {
                window_of(case, address).filter(|&row| Some(row) == first)
            })
        }),
        outside("leaves out what is outside", |_, _| None),
        outside("names the last address outside", |case, addresses| {
            let back: Vec<u64> = addresses.iter().rev().copied().collect();
            (RIGHT.outside)(case, &back)
        }),
    ]
}

/// Those that take away other marks.
fn markers() -> Vec<Wrong> {
    let clearing = |name, cleared| ruled(name, Rules { cleared, ..RIGHT });
    vec![
        clearing("clears the marks of the whole pool", |case, place| {
            place < case.pool
        }),
        clearing("clears every bit of the marks", |_, _| true),
        clearing("clears the unused bits", |case, place| {
            place >= case.pool || (RIGHT.cleared)(case, place)
        }),
        clearing("clears the other owner's marks", |case, place| {
            held(case, place).next().is_some()
        }),
        clearing("clears marks of no window", |case, place| {
            let free = held(case, place).next().is_none();
            (free && place < case.pool) || (RIGHT.cleared)(case, place)
        }),
        clearing("keeps the marks from before", |_, _| false),
        clearing(
            "clears the marks of the first window alone",
            |case, place| {
                let mut own = case.rows.iter().filter(|row| row.owner == case.owner);
                let first = own.find(|row| row.length > 0);
                held(case, place).any(|row| Some(row) == first)
            },
        ),
    ]
}

/// Those that do things in another order.
fn orders() -> Vec<Wrong> {
    vec![
        ruled(
            "judges the text before the table",
            Rules {
                late: true,
                ..RIGHT
            },
        ),
        ruled(
            "clears its marks before it refuses a text",
            Rules {
                hasty: true,
                ..RIGHT
            },
        ),
    ]
}
