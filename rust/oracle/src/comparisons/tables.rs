//! Window tables: the model against the port and the face; and two owners in turn against two loaders of one window each.

use ihex::{BadTable, Owner, Table, Window};
use ihex_sys::REFUSED;

use crate::comparisons::lent::Lent;
use crate::comparisons::loads::{answer, by_face_with, by_port};
use crate::comparisons::run::{by_block, by_chance, Kind as Comparison, Plan};
use crate::comparisons::seen::{Answers, Times};
use crate::inputs::loads::LoadCase;
use crate::inputs::marks::packed_length;
use crate::inputs::tables::{self as inputs, FullCase, Kind, Row, TableCase, Turn, TurnsCase};
use crate::models::loads::LoadAnswer;
use crate::models::tables::{broken, has_twice, model, refuses, BAD_TABLE, LIMITS, RIGHT};
use crate::subjects::port::Port;

/// What tables and loads through them are to be asked for, with each kind of text; and how many windows the records of an
/// accepted load are to lie in.
pub static SEEN: [Answers; 4] = [
    Answers::new("check of a table", &[0, 279]),
    Answers::new(
        "loader through a table",
        &[0, 257, 258, 262, 269, 273, 277, 279],
    ),
    Answers::new(
        "loader of S-records through a table",
        &[0, 257, 262, 269, 273, 276, 279],
    ),
    Answers::new(
        "loader through a table, by how many windows an accepted text marks",
        &[0, 1, 2, 3, 4],
    ),
];

/// How often each limit alone was broken.
static SEEN_LIMITS: Times = Times::new();

/// Prints how often each limit was broken alone, and says whether none is missing.
pub fn show_seen() -> bool {
    let names = LIMITS.iter().map(|(name, _)| name.to_string());
    let title = "every limit of a table, broken alone (limit: times)";
    SEEN_LIMITS.show(title, names.enumerate())
}

/// Notes the code of a load, and the limit that it breaks, if it breaks one alone.
fn note(case: &TableCase, code: u32) {
    let seen = match case.kind {
        Kind::Intel => &SEEN[1],
        Kind::SRecords => &SEEN[2],
    };
    seen.note(code);
    if let [limit] = broken(case)[..] {
        SEEN_LIMITS.note(limit);
    }
    if code == 0 {
        let (mut pool, mut row) = (vec![0; case.pool], vec![0; case.marks]);
        model(case, &mut pool, &mut row);
        let marked = |place: u64| row[place as usize / 8] >> (place % 8) & 1 == 1;
        let touched = |row: &&Row| (row.place..row.place + row.length).any(marked);
        SEEN[3].note(case.rows.iter().filter(touched).count() as u32);
    }
}

/// What is wrong with the port's check of a table.
fn checked(port: &dyn Port, case: &TableCase, table: &Lent) -> Option<String> {
    let should = match refuses(RIGHT, case) {
        true => REFUSED + BAD_TABLE,
        false => 0,
    };
    SEEN[0].note(should);
    let is = port.check_table(table.bytes(), case.pool, case.marks);
    (is != should).then(|| format!("check {is}, model {should}"))
}

/// What is wrong with a load by the port, and with its check of the table.
fn port(port: &dyn Port, case: &TableCase) -> Option<String> {
    let table = Lent::holding(&case.table());
    let wrong = by_port(
        &case.load(),
        |_: &LoadCase, pool: &mut [u8], row: &mut [u8]| model(case, pool, row),
        |answer| note(case, answer.code),
        |text, pool, marks, places, numbers| {
            let (owner, table) = (case.owner, table.bytes());
            match case.kind {
                Kind::Intel => port.load_table(text, owner, table, pool, marks, places, numbers),
                Kind::SRecords => {
                    port.load_srecords_table(text, owner, table, pool, marks, places, numbers)
                }
            }
        },
    );
    wrong
        .or_else(|| checked(port, case, &table))
        .or_else(|| table.unlike("table", &case.table()))
}

/// The page and marks of an owner's own loader.
struct Alone {
    row: Row,
    page: Vec<u8>,
    marks: Vec<u8>,
}

fn bit(row: &[u8], place: usize) -> u8 {
    row[place / 8] >> (place % 8) & 1
}

impl Alone {
    /// They hold what the window's places hold.
    fn new(row: Row, pool: &[u8], marks: &[u8]) -> Self {
        let (place, length) = (row.place as usize, row.length as usize);
        let mut alone = Alone {
            row,
            page: pool[place..place + length].to_vec(),
            marks: vec![0; packed_length(length)],
        };
        for i in 0..length {
            alone.marks[i / 8] |= bit(marks, place + i) << (i % 8);
        }
        alone
    }

    /// Loads by the loader of one window.
    fn load(&mut self, port: &dyn Port, turn: &Turn) -> LoadAnswer {
        let (first, page, marks) = (self.row.first, &mut self.page, &mut self.marks);
        answer(|places, numbers| match turn.kind {
            Kind::Intel => port.load(&turn.text, first, page, marks, places, numbers),
            Kind::SRecords => port.load_srecords(&turn.text, first, page, marks, places, numbers),
        })
    }

    /// Puts what they hold where the window's places are.
    fn lay(&self, pool: &mut [u8], marks: &mut [u8]) {
        for (i, &byte) in self.page.iter().enumerate() {
            let place = self.row.place as usize + i;
            pool[place] = byte;
            marks[place / 8] &= !(1 << (place % 8));
            marks[place / 8] |= bit(&self.marks, i) << (place % 8);
        }
    }
}

/// What is wrong with a row of loads through a table, if each owner's windows are to hold what its own loader leaves, and
/// all else what it held.
fn in_turn(port: &dyn Port, case: &TurnsCase) -> Option<String> {
    let (mut pool, mut marks) = (Lent::new(case.pool), Lent::new(packed_length(case.pool)));
    let (mut held, mut marked) = (pool.bytes().to_vec(), marks.bytes().to_vec());
    let mut alone = case.rows.map(|row| Alone::new(row, &held, &marked));
    let mut rows = case.rows.to_vec();
    if case.turned {
        rows.reverse();
    }
    let table = TableCase::new(Kind::Intel, vec![], 1, rows, case.pool).table();
    for (n, turn) in case.turns.iter().enumerate() {
        let (text, owner) = (&turn.text, turn.owner);
        let (pool_, row) = (pool.slice(), marks.slice());
        let is = answer(|places, numbers| match turn.kind {
            Kind::Intel => port.load_table(text, owner, &table, pool_, row, places, numbers),
            Kind::SRecords => {
                port.load_srecords_table(text, owner, &table, pool_, row, places, numbers)
            }
        });
        let own = &mut alone[owner as usize - 1];
        let should = own.load(port, turn);
        if is != should {
            return Some(format!("load {n}: {is:?}, alone {should:?}"));
        }
        own.lay(&mut held, &mut marked);
        let wrong = pool
            .unlike("pool", &held)
            .or_else(|| marks.unlike("marks", &marked));
        if let Some(wrong) = wrong {
            return Some(format!("load {n}: {wrong}"));
        }
    }
    None
}

/// A window as the face has it, if it has such an owner.
fn window(row: &Row) -> Option<Window> {
    let owner = match row.owner {
        1 => Owner::First,
        2 => Owner::Second,
        _ => return None,
    };
    Some(Window {
        owner,
        first: row.first,
        length: row.length as usize,
        place: row.place as usize,
    })
}

/// Whether the limit that the face names is broken.
fn is_true(why: BadTable, case: &TableCase) -> bool {
    let alone = |i: usize, limit: usize| {
        let rows = vec![case.rows[i]];
        let case = TableCase {
            rows,
            ..case.clone()
        };
        LIMITS[limit].1(&case)
    };
    let both = |i: usize, j: usize| [case.rows[i], case.rows[j]];
    match why {
        BadTable::TooManyWindows(n) => n == case.rows.len() && n > 16,
        BadTable::PoolTooLong(n) => n == case.pool && n > 65_536,
        BadTable::BeyondAddresses(i) => alone(i, 6),
        BadTable::BeyondPool(i) => alone(i, 7),
        BadTable::SharedPlace(i, j) => {
            i != j && has_twice(&both(i, j), |row| (0, row.place.into()))
        }
        BadTable::SharedAddress(i, j) => {
            i != j && has_twice(&both(i, j), |row| (row.owner, row.first.into()))
        }
        _ => false,
    }
}

/// What is wrong with a table of the face, or with a load through it. Owners that there are not, and tables that are torn,
/// cannot be told to it.
fn face(case: &TableCase) -> Option<String> {
    let whole = TableCase {
        torn: 0,
        ..case.clone()
    };
    let windows: Vec<Window> = case.rows.iter().map(window).collect::<Option<_>>()?;
    let owner = window(&Row::new(case.owner, 0, 0, 0))?.owner;
    let table = match Table::new(&windows, case.pool) {
        Ok(table) => table,
        Err(why) if is_true(why, &whole) => return None,
        Err(why) => return Some(format!("face says {why}")),
    };
    by_face_with(
        &case.load(),
        |_: &LoadCase, pool: &mut [u8], row: &mut [u8]| model(&whole, pool, row),
        |text, pool, marks| match case.kind {
            Kind::Intel => table.load(owner, text, pool, marks),
            Kind::SRecords => table.load_srecords(owner, text, pool, marks),
        },
    )
}

/// What is compared with the port.
pub fn of_port<'a>(port: &'a dyn Port, plan: Plan) -> Vec<Comparison<'a>> {
    let check = move |case: &TableCase| self::port(port, case);
    vec![
        by_chance("loads through a table", plan, 100, inputs::load, check),
        by_block(
            "loads through every table of two small windows",
            plan,
            inputs::SMALL,
            inputs::every_small,
            check,
        ),
        by_block(
            "loads through a table into a full pool",
            plan,
            1,
            inputs::full_pools,
            move |case: &FullCase| self::port(port, &case.load()),
        ),
        by_chance(
            "two owners in turn, and each alone",
            plan,
            30,
            inputs::turns,
            move |case: &TurnsCase| in_turn(port, case),
        ),
    ]
}

/// What is compared with the face.
pub fn of_face(plan: Plan) -> Vec<Comparison<'static>> {
    vec![
        by_chance("face: loads through a table", plan, 40, inputs::load, face),
        by_block(
            "face: loads through every table of two small windows",
            plan,
            inputs::SMALL,
            inputs::every_small,
            face,
        ),
    ]
}
